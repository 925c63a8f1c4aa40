"""Tests of tools/compare: edits that move everything and change nothing, and changes that are found at their lines."""
import re
import subprocess
import unittest

from calling import TOOLS, TOP, Calling
from lib import program
from lying import liar

SOURCE = '''* counts
N      EQU  >8300
TEXT   EQU  >8304
PLACE  EQU  >8306
WORDS  TEXT 'ABC'
MORE   TEXT 'DEF'
S      ST   @N,3
       DST  @TEXT,WORDS
       DST  @PLACE,N->8300
LOOP   CALL SHOW
       BYTE 9
       DEC  @N
       BR   LOOP
       EXIT
SHOW   FETCH @N+1
       MOVE 3,V@>0000(@TEXT),G@WORDS
       CEQ  @N,2
       BR   SHOW1
       DST  @TEXT,MORE
SHOW1  ADD  @>8310,*PLACE
       RTN
       END  S
'''.replace('V@>0000(@TEXT)', 'V@>0020')
SAME = 'no difference\n'


class Compare(Calling):
    def compared(self, new, *words, old=SOURCE, status=1):
        """The report on the runs of two sources."""
        self.file('old.gpl', old.encode())
        self.file('new.gpl', new.encode())
        ended = self.call('compare', 'old.gpl', 'new.gpl', *words)
        self.assertEqual((ended.returncode, ended.stderr), (status, b''), ended.stdout.decode())
        return ended.stdout.decode()

    def test_edits_that_change_nothing(self):
        source = SOURCE
        for edits in ([], [('* counts', '* counts\n* more')],
                      # a line of data, a dead line, and a line without an effect that is executed
                      [('WORDS ', 'LESS   TEXT \'X\'\nWORDS ')], [('SHOW  ', 'DEAD   RTN\nSHOW  ')],
                      [('       CEQ', '       CLR  @NEW\n       CEQ'), ('N      EQU', 'NEW    EQU  >8320\nN      EQU')],
                      # moved cells, one of them with an offset in a cell
                      [('EQU  >8300', 'EQU  >8308')], [('EQU  >8304', 'EQU  >830C'), ('EQU  >8306', 'EQU  >8340')],
                      # renamed labels and cells
                      [('SHOW1', 'AFTER')], [('LOOP', 'AGAIN')], [(' @N,', ' @COUNT,'), ('@N\n', '@COUNT\n'),
                      ('@N+', '@COUNT+'), (',N-', ',COUNT-'), ('N      EQU', 'COUNT  EQU')],
                      # a number by its name, another GROM, and all of it
                      [('@N,3', '@N,THREE'), ('N      EQU', 'THREE  EQU  3\nN      EQU')],
                      [('WORDS ', '       GROM >8000\nWORDS ')],
                      [('SHOW', 'SAY'), ('EQU  >8300', 'EQU  >8308'), ('MORE ', '       BSS  300\nMORE ')]):
            new = source
            for before, after in edits:
                self.assertIn(before, new)
                new = new.replace(before, after)
            with self.subTest(edits):
                self.assertTrue(self.compared(new, status=0).startswith(SAME))
        self.assertTrue(self.compared(source, old=new, status=0).startswith(SAME))
        # a name for what was a number, and a name that the other source does not have
        named = SOURCE.replace('N      EQU', 'SUM    EQU  >8310\nN      EQU').replace('@>8310', '@SUM')
        report = self.compared(named.replace('CEQ ', 'ST   @NEW,5\n       CEQ ').replace(
            'N      EQU', 'NEW    EQU  >8320\nN      EQU'), status=0)
        self.assertTrue(report.startswith(SAME) and report.endswith(' alone. Not compared: NEW.\n'), report)
        self.assertIn('  SUM >8310: >06 in the old run, >07 in the new one\n', self.compared(
            SOURCE.replace('       EXIT', '       INC  @>8310\n       EXIT'), old=named))
        source = source.replace('RTN', 'INC  @>8310\n       RTN')
        self.assertTrue(self.compared(source.replace('>8310', '>8360'), old=source, status=0).startswith(SAME))
        self.assertTrue(self.compared(source.replace('C  @>8310', 'C  @>8360'), old=source).startswith(
            'the first other instruction'))

    def test_a_changed_constant_is_found_at_its_line(self):
        report = self.compared('* new\n' + SOURCE.replace('CEQ  @N,2', 'CEQ  @N,3').replace('LOOP', 'AGAIN'))
        self.assertTrue(report.startswith(
            'the first other instruction:\n'
            '  old  old.gpl:17: step 7: CEQ  @N,2\n'
            '  new  new.gpl:18: step 7: CEQ  @N,3\n'
            'the runs part after these steps:\n'
            '  old  old.gpl:18: step 8: BR   SHOW1\n'
            '  new  new.gpl:19: step 8: BR   SHOW1\n'
            'and go on:\n'
            '  old  old.gpl:20: step 9: SHOW1  ADD  @>8310,*PLACE\n'
            '  new  new.gpl:20: step 9: DST  @TEXT,MORE\n'), report)

    def test_a_changed_number_of_a_name_is_found_where_it_is_used(self):
        old = 'LIMIT  EQU  5\nA      EQU  >8300\nS      ST   @A,LIMIT\n       EXIT\n       END  S\n'
        report = self.compared(old.replace('EQU  5', 'EQU  6'), old=old)
        self.assertEqual(report, '''the first other instruction, with the first other effect:
  old  old.gpl:3: step 1: S      ST   @A,LIMIT
  new  new.gpl:3: step 1: S      ST   @A,LIMIT
  A >8300: >05 in the old run, >06 in the new one
in the end:
  A >8300: >05 in the old run, >06 in the new one
old.gpl: Ended by EXIT at >6003 after 1 step.
new.gpl: Ended by EXIT at >6003 after 1 step.
''')

    def test_changed_data_is_found_where_it_has_an_effect(self):
        report = self.compared(SOURCE.replace("'ABC'", "'ABD'").replace('EQU  >8306', 'EQU  >8346'))
        self.assertTrue(report.startswith(
            'the first other effect:\n  old  old.gpl:16: step 6: MOVE 3,V@>0020,G@WORDS\n'
            '  new  new.gpl:16: step 6: MOVE 3,V@>0020,G@WORDS\n'
            '  V>0022: >43 in the old run, >44 in the new one\nin the end:\n'
            '  video memory: 1 byte, the first V>0022: >43 in the old run, >44 in the new one\n'
            '  screen, row  1: old |ABC'), report)
        report = self.compared(SOURCE.replace('BYTE 9', 'BYTE 8').replace('EQU  >8300', 'EQU  >8302'))
        self.assertIn('  N.1 >8301, then >8303: >09 in the old run, >08 in the new one\n', report)

    def test_a_line_that_is_executed_alone_is_found_by_its_effect(self):
        report = self.compared(SOURCE.replace('       EXIT', '       BACK 5\n       EXIT'))
        self.assertTrue(report.startswith('the first other effect:\n  new  new.gpl:14: step 32: BACK 5\n'
                                          '  W7: >00 in the old run, >05 in the new one\n'), report)
        self.assertTrue(report.endswith('new.gpl: Ended by EXIT at >601B after 32 steps. '
                                        '1 step on lines of this source alone.\n'), report)

    def test_runs_that_end_otherwise(self):
        report = self.compared('S CLR @>8300\n ST @>8301,3\n EXIT\n END S\n',
                               old='S CLR @>8300\n EXIT\n END S\n')
        self.assertTrue(report.startswith('the first other effect:\n  new  new.gpl:2: step 2: ST @>8301,3\n'), report)
        old = 'A EQU >8300\nP EQU >8302\nS DST @A,>5000\n DST @P,0\n MOVE @A,V@0,*P\n END S\n'
        self.assertIn('and go on:\n  old  old.gpl:5: stop 4: MOVE @A,V@0,*P\n'
                      '  new  new.gpl:5: stop 2: MOVE @A,V@0,*P\n',
                      self.compared(old.replace('A,>5000', 'A,5').replace('P,0', 'P,>0200'), old=old))
        self.assertIn('the first other instruction:\n  old  old.gpl:2: step 2: B S\n  new  new.gpl:2: step 2: B T\n',
                      self.compared('S INC @>8300\n B T\nT EXIT\n END S\n', '9',
                                    old='S INC @>8300\n B S\nT EXIT\n END S\n'))

    def test_a_run_that_is_cut_off_is_compared_up_to_there(self):
        old = 'A EQU >8300\nS INC @A\n B S\n END S\n'
        self.assertEqual(self.compared('A EQU >8300\nS INC @A\n CEQ @A,@A\n B S\n END S\n', '50', old=old, status=0),
                         'no difference\nold.gpl: Cut off after 50 steps, the limit.\nnew.gpl: Cut off after 50 steps, '
                         'the limit. 17 steps on lines of this source alone.\n')
        self.assertTrue(self.compared(SOURCE.replace('@N,3', '@N,9'), '0', status=0).startswith(SAME))

    def test_two_planted_faults_of_a_cartridge_of_several_files(self):
        lights = TOP / 'examples/lights'
        for path in lights.glob('*.gpl'):
            self.file(f'old/{path.name}', path.read_bytes())
            self.file(f'new/{path.name}', path.read_bytes())
        words = ['compare', '-D', 'BENCH', 'old/lights.gpl', 'new/lights.gpl', '700']
        ended = self.call(*words)
        self.assertEqual((ended.returncode, ended.stdout[:14]), (0, SAME.encode()))
        for name, before, after, found in (
                ('board.gpl', '       INC  @SHAPE', '       INCT @SHAPE',
                 r'old  old/board\.gpl:68: step [0-9]+: INC  @SHAPE'),
                ('board.gpl', 'ADD  @LEFT', 'SUB  @LEFT', r'new  new/board\.gpl:62: step [0-9]+: \.light SUB  @LEFT')):
            text = (lights / name).read_text()
            self.assertIn(before, text)
            self.file(f'new/{name}', text.replace(before, after, 1).encode())
            ended = self.call(*words)
            self.assertEqual(ended.returncode, 1)
            self.assertRegex(ended.stdout.decode().partition('in the end')[0], found)
            self.file(f'new/{name}', text.encode())


class Failing(Calling):
    """What is refused, and what is not written."""

    def setUp(self):
        super().setUp()
        self.file('a.gpl', SOURCE.encode())
        self.file('b.gpl', SOURCE.replace('@N,3', '@N,4').encode())

    def ends(self, words, status, text, **environment):
        ended = self.call('compare', *words, **environment)
        self.assertEqual((ended.returncode, ended.stdout), (status, b''), ended.stderr)
        self.assertIn(text, ended.stderr.decode())

    def test_a_program_that_lies_compares_nothing(self):
        real = program.other(program.program().path, 'ti_debug')
        for command, pattern, new, text in (
                ('gsteps', rb'^ +9 .*\n', b'', 'step 9 does not fit'), ('gsteps', rb'^gpl >', b'GPL >', 'no state'),
                ('gsteps', rb'^(>8300 0)0', rb'\g<1>1', 'do not lead to the state'),
                ('glist', rb'^name >', b'Name >', 'no line of a listing')):
            self.ends(['a.gpl', 'b.gpl'], 1, text, TI_DEBUG=liar(self.folder, real, command, pattern, new))
            self.assertTrue((self.folder / 'lied').exists())

    def test_words_and_sources_that_do_not_fit(self):
        self.file('c.gpl', b' FOO\n')
        for words, status, text in (
                (['a.gpl'], 2, 'required: NEW'), (['-', '-'], 2, 'standard input is one source, and not both'),
                (['a.gpl', 'b.gpl', '100001'], 2, 'no number'), (['a.gpl', 'none.gpl'], 3, 'none.gpl: No such file'),
                (['c.gpl', 'a.gpl'], 1, 'c.gpl:1: unknown operation\n'),
                (['a.gpl', 'c.gpl'], 1, 'c.gpl:1: unknown operation\n')):
            self.ends(words, status, text)
        ended = self.call('compare', '-', 'b.gpl', given=SOURCE.encode())
        self.assertEqual((ended.returncode, re.findall(r'<stdin>:[0-9]+', ended.stdout.decode())[0]), (1, '<stdin>:7'))

    def test_what_cannot_be_written_is_said(self):
        with open('/dev/full', 'wb') as full:
            ended = subprocess.run([TOOLS / 'compare', 'a.gpl', 'b.gpl'], cwd=self.folder, stdout=full,
                                   stderr=subprocess.PIPE)
        self.assertEqual((ended.returncode, ended.stderr),
                         (3, b'tools/compare: standard output: No space left on device\n'))


if __name__ == '__main__':
    unittest.main()
