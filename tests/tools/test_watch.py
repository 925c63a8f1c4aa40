"""Tests of tools/watch."""
import re
import unittest

from calling import TOP, Calling
from lib import program
from lying import liar, sleeper

SHOW = (TOP / 'examples/show/input').read_bytes()
# it is stopped in its sixth step
STOPS = SHOW.replace(b'SHOW   CASE @COUNT', b'SHOW   CASE @>83C2')
STEP = re.compile(r' *([0-9]+) >([0-9A-F]{4}) S.. D.. R.. [^=]*?((?: [^ =]+=[^ ]+)*)')


def hit_of(item, changes, after):
    """How an item holds at a step with these changes, after which the next instruction is at an address: not at all, or
    once."""
    if isinstance(item, int):
        return ['is reached'] if after == item else []
    memory, first, size = item
    for change in changes.split():
        place, _, values = change.partition('=')
        at = int(place.lstrip('VW>'), 16)
        for value in values.split(','):
            byte, _, times = value.partition('*')
            for place_now in range(at, at + int(times or 1)):
                if place[0] == memory and first <= place_now < first + size:
                    return [f'{"V" * (memory == "V")}>{place_now:04X}={byte}']
            at += int(times or 1)
    return []


class Watch(Calling):
    def watch(self, *words, source=SHOW):
        self.file('show.gpl', source)
        return self.call('watch', *words)

    def test_the_first_hit_is_a_line_of_the_source(self):
        ended = self.watch('show.gpl', '100', 'pad:SUM')
        self.assertEqual((ended.returncode, ended.stderr), (0, b''))
        self.assertEqual(ended.stdout.splitlines(),
                         [b'show.gpl:27: step 24 at >604C: pad:SUM >8302=7F', b'    ONE    ADD @SUM,>7F'])

    def test_all_hits_are_those_that_a_list_of_all_steps_has(self):
        """Each hit is worked out here of what `gsteps` writes: of the changes, and of the next line's address."""
        items = {'pad:COUNT': ('>', 0x8300, 1), 'vdp:0021': ('V', 0x21, 1), 'pc:SHOW': 0x6035,
                 'pad:8373': ('>', 0x8373, 1), 'pad:COUNT.2+4': ('>', 0x8302, 4), 'vdp:0000+2': ('V', 0, 2), 'pc:>602B': 0x602B, 'pc:6034': 0x6034}
        for source, limit in ((SHOW, '100'), (SHOW, '20'), (STOPS, '100')):
            debugger = program.Program(program.other(program.program().path, 'ti_debug'))
            rows = debugger.run('gsteps', limit, given=source).out.decode().splitlines()
            end = next(row for row in rows if row.startswith('gpl '))
            steps = [STEP.fullmatch(row) for row in rows[:rows.index(end)] if STEP.fullmatch(row)]
            after = [*(step[2] for step in steps[1:]), end[5:9]]
            wanted = [f'step {step[1]} at >{step[2]}: {word} {what}'
                      for step, address in zip(steps, after) for word, item in items.items()
                      for what in hit_of(item, step[3], int(address, 16))]
            ended = self.watch('--all', 'show.gpl', limit, *items, source=source)
            found = [re.sub(r' \(line [0-9]+\)', '', row.partition(': ')[2])
                     for row in ended.stdout.decode().splitlines() if not row.startswith('    ')]
            self.assertEqual((found, ended.returncode), (wanted, 0))
            self.assertTrue(len(wanted) > 2)

    def test_an_address_that_is_reached_has_its_own_line_and_that_of_the_step(self):
        ended = self.watch('--all', 'show.gpl', '14', 'pc:SHOW', 'pc:>603D')
        self.assertEqual(ended.stdout.decode().splitlines(), [
            'show.gpl:18: step 5 at >602B (line 13): pc:SHOW is reached', '    SHOW   CASE @COUNT',
            'show.gpl:22: step 6 at >6035 (line 18): pc:>603D is reached', '           BR THREE',
            'show.gpl:18: step 13 at >602B (line 13): pc:SHOW is reached', '    SHOW   CASE @COUNT'])

    def test_an_address_without_a_line_is_reached_too(self):
        ended = self.watch('show.gpl', '9', 'pc:7000', source=b'S B >7000\n END S\n')
        self.assertEqual(ended.stdout, b'show.gpl: step 1 at >6000 (line 1): pc:7000 is reached\n')

    def test_what_is_near_to_no_hit_is_said(self):
        source = b'W EQU >8302\nS DINC @W\n INC V@>0001\n EXIT\n END S\n'
        word, byte = 'the byte after pad:W changed in step 1; pad:W+2 watches both', \
            'the byte after vdp:0000 changed in step 2; vdp:0000+2 watches both'
        entry = 'pc:S is the entry, where the program begins; no step led back to it'
        for words, notes in ((['pad:W'], [word]), (['pad:W+1'], []), (['pad:W.2'], []),
                             (['vdp:0000', 'pc:S'], [byte, entry]), (['pc:6001'], []), (['pad:83C1'], []), (['vdp:3FFF'], [])):
            for more in ([], ['--all']):
                ended = self.watch(*more, 'show.gpl', '9', *words, source=source)
                self.assertEqual((ended.returncode, ended.stdout, ended.stderr.decode().splitlines()), (
                    1, b'', ['tools/watch: no hit; EXIT at >6005 after 2 steps', *(f'  {it}' for it in notes)]))
        ended = self.watch('show.gpl', '9', 'pc:S', source=b'S INC @>8300\n B S\n END S\n')
        self.assertEqual(ended.stdout, b'show.gpl:1: step 2 at >6002 (line 2): pc:S is reached\n    S INC @>8300\n')

    def test_control_codes_of_a_source_are_not_written(self):
        source = b'S INC @>8300  * \x1b]0;x\x07 \x9b2J \xc3\xa9 \xe9\n END S\n'
        ended = self.watch('show.gpl', '1', 'pad:8300', source=source)
        self.assertEqual(ended.stdout.splitlines()[1],
                         b'    S INC @>8300  * \\x1b]0;x\\x07 \\x9b2J \xc3\xa9 \xe9')

    def test_names_come_before_addresses(self):
        source = b'FACE EQU >8310\nS INC @FACE\n EXIT\n END S\n'
        ended = self.watch('show.gpl', '10', 'pad:FACE', source=source)
        self.assertIn(b'pad:FACE >8310=01', ended.stdout)
        ended = self.watch('show.gpl', '10', 'pad:face', source=source)
        self.assertIn(b'pad:face >8310=01', ended.stdout)

    def test_what_is_no_item_is_named(self):
        for word, text in (('pad:NOSUCH', b'pad:NOSUCH: the source has no name NOSUCH'),
                           ('cell:SUM', b'cell:SUM: no item; it is pad:AT+LEN, vdp:AT+LEN or pc:AT'),
                           ('pc:.loop', b'pc:AT, and AT of a local label as START.loop\n'),
                           ('vdp:0+768', b'vdp:0+768: the source has no name 0, and an address has four hexadecimal'),
                           ('pad:A83', b'pad:A83: the source has no name A83\n'),
                           ('cell:.SUM', b'cell:.SUM: no item; it is pad:AT+LEN, vdp:AT+LEN or pc:AT\n'),
                           ('pc:SHOW+1', b'pc:SHOW+1: pc: has no length'),
                           ('pad:83C1+2', b'pad:83C1+2: not within >8300 to >83C1'),
                           ('pad:82FF', b'pad:82FF: not within >8300 to >83C1'),
                           ('vdp:3FFF.1', b'vdp:3FFF.1: not within >0000 to >3FFF'),
                           ('vdp:0000+0', b'vdp:0000+0: LEN is at least 1'),
                           ('pad:COUNT+0', b'pad:COUNT+0: LEN is at least 1'),
                           ('pc:FFFF.1', b'pc:FFFF.1: not within >0000 to >FFFF')):
            ended = self.watch('show.gpl', '100', word)
            self.assertEqual((ended.returncode, ended.stdout), (2, b''))
            self.assertIn(text, ended.stderr)

    def test_at_most_eight_items_are_given(self):
        self.assertEqual(self.watch('show.gpl', '1', *8 * ['vdp:3FFF']).returncode, 1)
        ended = self.watch('show.gpl', '1', *9 * ['vdp:3FFF'])
        self.assertEqual((ended.returncode, ended.stdout), (2, b''))
        self.assertIn(b'at most 8 items can be given', ended.stderr)

    def test_no_hit_has_a_status_and_says_why(self):
        exits = b'S INC @>8300\n INC @>8300\n EXIT\n END S\n'
        stops = b'S INC @>8300\n INC @>8300\n ST @>83C2,@>8300\n END S\n'
        for source, limit, text in ((SHOW, '3', b'no hit in 3 steps'), (SHOW, '1', b'no hit in 1 step'),
                                    (exits, '2', b'no hit in 2 steps'),
                                    (exits, '100', b'no hit; EXIT at >6004 after 2 steps'),
                                    (b'S EXIT\n END S\n', '100', b'no hit; EXIT at >6000 after 0 steps'),
                                    (stops, '100', b'no hit; stopped at >6004 by reason 2 after 2 steps')):
            for words in ([], ['--all']):
                ended = self.watch(*words, 'show.gpl', limit, 'pad:8310', source=source)
                self.assertEqual((ended.returncode, ended.stdout, ended.stderr), (1, b'', b'tools/watch: %s\n' % text))

    def test_a_run_of_more_steps_than_watch_makes(self):
        """Three steps for each of the 34,048 numbers up to >8500, and two more."""
        source = b'S DINC @>8300\n DCEQ @>8300,>8500\n BR S\n ST @>8310,1\n ST @>8311,2\n EXIT\n END S\n'
        hit = (b'show.gpl:4: step 102145 at >6008: pad:8310 >8310=01\n', b'     ST @>8310,1\n')
        ended = self.watch('show.gpl', '10000000', 'pad:8310', source=source)
        self.assertEqual((ended.stdout, ended.returncode, ended.stderr), (b''.join(hit), 0, b''))
        ended = self.watch('show.gpl', '110000', 'pad:8320', source=source)
        self.assertEqual((ended.stdout, ended.returncode), (b'', 1))
        self.assertEqual(ended.stderr, b'tools/watch: no hit; EXIT at >600E after 102,146 steps\n')
        debugger = program.other(program.program().path, 'ti_debug')
        ended = self.call('watch', 'show.gpl', '110000', 'pad:8310',
                          TI_DEBUG=liar(self.folder, debugger, 'gsteps', rb'^(102145 .*)=01$', rb'\1=02'))
        self.assertEqual((ended.stdout, ended.returncode), (b'', 1))
        self.assertIn(b'do not lead to the state', ended.stderr)

    def test_a_program_that_takes_too_long_is_ended(self):
        bench = program.program().path
        debugger = program.other(bench, 'ti_debug')
        source = b'S INC @>8300\n B S\n END S\n'
        self.file('show.gpl', source)
        begun = b''.join(program.Program(debugger).run('gsteps', '3', given=source).out.splitlines(True)[:3])
        ended = self.call('watch', '--all', '--seconds', '10', 'show.gpl', '9', 'pad:8300',
                          TI_DEBUG=sleeper(self.folder, debugger, 'gsteps', begun))
        self.assertEqual((ended.returncode, ended.stdout.count(b' step ')), (0, 2), ended.stderr)
        self.assertEqual(ended.stderr, b'tools/watch: only the first 3 steps were looked at: more would take longer '
                                       b'than 10 seconds\n')
        for words in [], ['--all']:
            ended = self.call('watch', *words, '--seconds', '1', 'show.gpl', '9', 'pad:8300',
                              TI_BENCH=sleeper(self.folder, bench, 'watch'), TI_DEBUG=debugger)
            self.assertEqual((ended.returncode, ended.stdout, ended.stderr), (
                1, b'', b'tools/watch: the program runs longer than 1 seconds; --seconds gives it more\n'))

    def test_a_refused_source_is_reported(self):
        ended = self.watch('show.gpl', '3', 'pad:SUM', source=b' FOO\n')
        self.assertEqual((ended.returncode, ended.stdout), (1, b''))
        self.assertTrue(ended.stderr.startswith(b'show.gpl:1: unknown operation\n'))


if __name__ == '__main__':
    unittest.main()
