"""Tests of the tools over programs that lie: what a tool checks, it must find, say and not write."""
import unittest

from calling import TOP, Calling
from lib import program
from lib.command import Stopped
from lying import liar, sleeper
from stepping.clock import Clock
from stepping.run import run_of
from test_marks import PORTS

SHOW = (TOP / 'examples/show/input').read_bytes()
NOT_LED_TO = 'the changes of the steps do not lead to the state that the program shows after the last'
VERSION = 'this ti_debug is perhaps of another version'
# Lies of `gsteps` about examples/show, and what is said of each: a byte, a line, a status.
STEPS = [
    (rb' >8302=7F ', b' >8302=7E ', NOT_LED_TO),
    (rb' >8300=01$', b' >8300=02', 'step 18 does not fit the steps before it'),
    (rb' V>0000=20\*768$', b' V>0000=20*767', NOT_LED_TO),
    (rb' W7=17$', b'', NOT_LED_TO),
    (rb'^>8300 00 ', b'>8300 01 ', NOT_LED_TO),
    (rb'^>0020 20 ', b'>0020 21 ', NOT_LED_TO),
    (rb'^regs 00 E0', b'regs 00 E1', NOT_LED_TO),
    (rb'^ +7 >603D S00 D9F R80 BR >603F\n', b'', 'step 7 does not fit the steps before it'),
    (rb'^( +6 >6035) S00', rb'\1 S20', 'step 6 does not fit the steps before it'),
    (rb'^( +6 >6035 S00) D9F', rb'\1 D9E', 'step 6 does not fit the steps before it'),
    (rb'^( +6 >6035 S00 D9F) R80', rb'\1 R7E', 'step 6 does not fit the steps before it'),
    (rb'^exit at >6034\n', b'', f'wrote no end of a run; {VERSION}'),
    (rb'^exit at', b'ended at', f'wrote no end of a run; {VERSION}'),
    (rb'^exit at', b'stop 1 at', f'wrote a run that ended with status 0; {VERSION}'),
    (rb'^gpl >', b'GPL >', f'wrote no state; {VERSION}'),
    (rb'^vdp$', b'VDP', f'wrote no state; {VERSION}'),
]
# Lies of `steps` about PORTS.
INSTRUCTIONS = [
    (rb' R2=2020$', b' R2=2021', NOT_LED_TO),
    (rb'^(>83E0 00 00 8)1', rb'\g<1>2', NOT_LED_TO),
    (rb'^>0040 00 20', b'>0040 00 21', NOT_LED_TO),
    (rb'^regs 00 E0', b'regs 00 E1', NOT_LED_TO),
    (rb'^(grom >...).', rb'\1F', NOT_LED_TO),
    (rb'^count 19', b'count 18', NOT_LED_TO),
    (rb'^>2000 2', b'>2000 1', NOT_LED_TO),
    (rb'^>B000 2', b'>B000 1', NOT_LED_TO),
    (rb'^ +3 .*\n', b'', 'step 3 does not fit the steps before it'),
    (rb'^end self jump', b'end limit', f'wrote no end of a run; {VERSION}'),
    (rb'^end self jump', b'end refused >A000', f'wrote a run that ended with status 0; {VERSION}'),
    (rb'^end self jump', b'end', f'wrote no end of a run; {VERSION}'),
    (rb'^grom', b'GROM', f'wrote no state; {VERSION}'),
    (rb'^count', b'Count', f'wrote no state; {VERSION}'),
    (rb'^low$', b'LOW', f'wrote no state; {VERSION}'),
    (rb'^high$', b'HIGH', f'wrote no state; {VERSION}'),
]


class Lying(Calling):
    def setUp(self):
        super().setUp()
        self.bench = program.program().path
        self.debugger = program.other(self.bench, 'ti_debug')
        self.old = self.file('out', b'old')

    def said(self, words, text, is_written=False, **environment):
        """A tool ends with status 1 and says this, after it was lied to, and writes nothing."""
        ended = self.call(*words, **environment)
        self.assertTrue((self.folder / 'lied').exists(), 'no lie was told')
        (self.folder / 'lied').unlink()
        self.assertEqual(ended.returncode, 1, ended.stderr)
        self.assertIn(text, ended.stderr.decode())
        self.assertEqual(ended.stderr.count(b'\n'), 1)
        self.assertEqual((ended.stdout, self.old.read_bytes()), (b'', b'old'))

    def debug(self, *lie, **status):
        return {'TI_DEBUG': liar(self.folder, self.debugger, *lie, **status)}

    def bench_lies(self, *lie, **status):
        return {'TI_BENCH': liar(self.folder, self.bench, *lie, **status), 'TI_DEBUG': self.debugger}

    def test_a_page_of_a_source_is_not_written(self):
        self.file('a.gpl', SHOW)
        words = ['steps', '-o', 'out', 'a.gpl']
        for pattern, new, text in STEPS:
            with self.subTest(pattern):
                self.said(words, text, **self.debug('gsteps', pattern, new))
        self.said(words, 'gsteps 1000: ended with status 5', **self.debug('gsteps', status=5))
        self.said(words, f'ended with status 7; {VERSION}', **self.debug('gsteps', status=7))
        self.said(words, 'no line of a listing', **self.debug('glist', rb'^name >', b'Name >'))
        for old, new in ((rb'( >6028 BE 00) 03', rb'\1 04'), (rb' >6028 BE', b' >6029 BE'),
                         (rb' >6000 AA', b' >5FFF AA'),
                         (rb'^.{7} >6034 .*\n', b''), (rb'^.{7} >6050 .*\n', b'')):
            self.said(words, 'the bytes of the lines are not those that the source is assembled to',
                      **self.debug('glist', old, new))

    def test_a_page_of_object_text_is_not_written(self):
        self.file('a.obj', program.Program(self.bench).run('asm', given=PORTS).out)
        words = ['steps', '--exec', '-o', 'out', 'a.obj']
        for pattern, new, text in INSTRUCTIONS:
            with self.subTest(pattern):
                self.said(words, text, **self.debug('steps', pattern, new))
        self.said(words, 'steps 1000: ended with status 5', **self.debug('steps', status=5))
        self.said(words, f'ended with status 7; {VERSION}', **self.debug('steps', status=7))
        self.said(words, NOT_LED_TO, **self.bench_lies('link', rb'^>A000 0201', b'>A000 0202'))
        self.said(words, 'no line of a listing of link', **self.bench_lies('link', rb'^>A000 ', b'A000 '))

    def test_a_source_that_is_listed_otherwise_has_no_page(self):
        self.file('a.asm', PORTS)
        self.file('a.obj', program.Program(self.bench).run('asm', given=PORTS).out)
        self.said(['steps', '--exec', '--source', 'a.asm', '-o', 'out', 'a.obj'],
                  'the words of this source are not in the object text', **self.debug('list', rb' 0201 ', b' 0202 '))

    def test_a_page_that_is_cut_is_compared_with_a_run(self):
        source = b'S INC @>8300\n B S\n END S\n'
        first = program.Program(self.debugger).run('gsteps', '1', given=source).out.splitlines(True)[0]
        debugger = program.Program(sleeper(self.folder, self.debugger, 'gsteps', first))
        lies = self.bench_lies('run', rb'^>8300 01', b'>8300 02')['TI_BENCH']
        for bench, said in ((self.bench, ''), (lies, NOT_LED_TO)):
            debugger.clock = Clock(4)
            try:
                self.assertEqual(len(run_of(program.Program(bench), debugger, source, 9).steps), 1)
            except Stopped as stopped:
                self.assertEqual(stopped.text, said)
            else:
                self.assertEqual(said, '')

    def test_hits_are_not_written(self):
        self.file('a.gpl', SHOW)
        words = ['watch', '--all', 'a.gpl', '100', 'pad:COUNT', 'vdp:0021']
        disagree = 'the changes of the steps do not agree with what watch finds'
        # the first hit, whose byte is another one at the end; and the last
        self.said(['watch', '--all', 'a.gpl', '100', 'pad:COUNT'], disagree,
                  **self.debug('gsteps', rb' >8300=03$', b' >8300=04'))
        self.said(words, NOT_LED_TO, **self.debug('gsteps', rb' >8300=00 ', b' >8300=07 '))
        self.said(words, 'step 7 does not fit', **self.debug('gsteps', rb'^ +7 .*\n', b''))
        self.said(words, 'gsteps 100: ended with status 5', **self.debug('gsteps', status=5))
        for old, new in ((rb'hit 2 ', b'hit 3 '), (rb'=20$', b'=21'), (rb'item 2', b'item 1'),
                         (rb'\Ahit.*\n', b'no hit\n')):
            with self.subTest(old):
                text = 'no report of watch on these items' if old == rb'item 2' else disagree
                self.said(words, text, **self.bench_lies('watch', old, new))
        ended = self.call(*words, **self.bench_lies('watch', status=5))
        self.assertEqual((ended.returncode, ended.stdout, ended.stderr),
                         (5, b'', b'tools/watch: the program ended with status 5\n'))

    def test_a_hit_of_no_item_is_not_written(self):
        self.file('a.gpl', SHOW)
        for old, new in ((rb'item 1', b'item 2'), (rb'>8300=03', b'>8301=03'), (rb'>8300=03', b'pc'),
                         (rb'hit', b'Hit')):
            self.said(['watch', 'a.gpl', '100', 'pad:COUNT'], 'the program wrote no report of watch on these items',
                      **self.bench_lies('watch', old, new))

    def test_a_labelled_source_is_not_written_or_it_gives_the_image(self):
        image = program.Program(self.bench).run('gasm', given=SHOW).out
        words = ['label', '-o', 'out', 'gdis', '6000']
        ended = self.call(*words, given=image, **self.bench_lies('gasm', rb'\A\xaa', b'\xab'))
        self.assertTrue((self.folder / 'lied').exists())
        self.assertEqual((ended.returncode, self.old.read_bytes()), (1, b'old'))
        self.assertIn(b'no source was found of which the program makes the same', ended.stderr)
        (self.folder / 'lied').unlink()
        ended = self.call(*words, given=image, **self.bench_lies('gdis', rb'^       EXIT$', b'       RTN'))
        self.assertTrue((self.folder / 'lied').exists())
        self.assertEqual(program.Program(self.bench).run('gasm', given=self.old.read_bytes()).out, image)

    def test_nothing_is_assembled_by_a_program_that_ends_otherwise(self):
        self.file('a.gpl', SHOW)
        for command, name in (('gasm', 'a.gpl'), ('asm', 'a.asm')):
            self.file('a.asm', PORTS)
            ended = self.call('assemble', '-o', 'out', name, **self.bench_lies(command, status=9))
            self.assertEqual((ended.returncode, ended.stdout, self.old.read_bytes()), (9, b'', b'old'))
            self.assertEqual(ended.stderr, f'{name}: the program ended with status 9\n'.encode())

    def test_an_image_that_does_not_come_back_is_different_or_failed(self):
        image = program.Program(self.bench).run('gasm', given=SHOW).out
        self.file('images/a.bin', image)
        for lie, kind, result in (
                (('gasm', rb'\A\xaa', b'\xab'), {}, 'different'),
                (('gdis', rb'^       EXIT$', b'       RTN'), {}, 'different'), (('gasm',), {'status': 9}, 'failed')):
            ended = self.call('archive', 'images', **self.bench_lies(*lie, **kind))
            self.assertTrue((self.folder / 'lied').exists())
            self.assertEqual(ended.returncode, 1)
            self.assertRegex(ended.stdout.decode(), rf'a\.bin +{result}')

    def test_a_film_of_another_report_is_not_written(self):
        report = program.Program(self.debugger).run(
            'gsteps', '100', given=(TOP / 'examples/picture/input').read_bytes()).out
        for old, new, text in (
                (b' V>0A38=3C', b' V>0A38=3D', 'the changes do not lead to the last screen'),
                (b'\n>0A30 00 00 00 00 00 00 00 00 3C', b'\n>0A30 00 00 00 00 00 00 00 00 3D',
                 'the changes do not lead to the last screen'),
                (b'     3 ', b'     4 ', 'no line of step 3 comes after the one before it')):
            self.assertIn(old, report)
            ended = self.call('screen', '--film', 'out', given=report.replace(old, new, 1))
            self.assertEqual((ended.returncode, ended.stderr.decode(), self.old.read_bytes()),
                             (1, f'tools/screen: {text}\n', b'old'))

    def test_words_of_another_listing_are_not_written(self):
        listing = b'entry >A000\nSTART >A000\n>A000 0201 0001 0002 0003 0004 0005 0006 0007\n>A010 10FF\n>B000 0001\n'
        for old, new, text in (
                (b'>A010 10FF', b'>A010 10F', 'no line of a listing of link: >A010 10F'),
                (b'>A010 10FF', b'>A010', 'no line of a listing of link: >A010'),
                (b'entry', b'exit', 'no line of a listing of link: exit >A000'),
                # a row that has another one at once after it has eight words
                (b'0006 0007\n>A010', b'0006\n>A00E', 'the rows of a listing do not follow one another: >A00E 10FF'),
                (b'>A010', b'>A00E', 'the rows of a listing do not follow one another: >A00E 10FF'),
                (b'>B000', b'>9000', 'the rows of a listing do not follow one another: >9000 0001')):
            ended = self.call('raw', '-o', 'out', given=listing.replace(old, new, 1))
            self.assertEqual((ended.returncode, ended.stderr.decode(), self.old.read_bytes()),
                             (1, f'tools/raw: {text}\n', b'old'))


if __name__ == '__main__':
    unittest.main()
