"""Tests of tools/profile: its sums against what the program writes, and its listing and routines by worked examples."""
import os
import re
import resource
import subprocess

from calling import TOOLS, TOP, Calling
from lib import program
from lying import liar

# Each count, each way and each stack follows from the text: three turns, of which two call SUB, and CASE 0, 1, 0.
SOURCE = b'''* three turns
N      EQU  >8300
WAY    EQU  >8302
S      ST   @N,3
AGAIN  CASE @WAY
       BR   ONE
       BR   TWO
ONE    CALL SUB
       INC  @WAY
       BR   NEXT
TWO    CLR  @WAY
       CEQ  @N,@N
       BS   NEXT
       RAND 9
NEXT   DEC  @N
       BR   AGAIN
       EXIT
SUB    PUSH @N
       RTN
       END  S
'''
LISTING = '''                        a.gpl:1  * three turns
                        a.gpl:2  N      EQU  >8300
                        a.gpl:3  WAY    EQU  >8302
         1              a.gpl:4  S      ST   @N,3
         3      2 ways  a.gpl:5  AGAIN  CASE @WAY
!        2         2/0  a.gpl:6         BR   ONE
!        1         1/0  a.gpl:7         BR   TWO
         2              a.gpl:8  ONE    CALL SUB
         2              a.gpl:9         INC  @WAY
!        2         2/0  a.gpl:10        BR   NEXT
         1              a.gpl:11 TWO    CLR  @WAY
         1              a.gpl:12        CEQ  @N,@N
!        1         1/0  a.gpl:13        BS   NEXT
!        0              a.gpl:14        RAND 9
         3              a.gpl:15 NEXT   DEC  @N
         3         2/1  a.gpl:16        BR   AGAIN
         1              a.gpl:17        EXIT
         2              a.gpl:18 SUB    PUSH @N
         2              a.gpl:19        RTN
                        a.gpl:20        END  S
'''
# SUB returns to the bytes after its call, which are RTNC and RTN to it.
DATA = b'''S      CALL SUB
       BYTE >9F
       EXIT
SUB    RTN
       END  S
'''
LIGHTS = str(TOP / 'examples/lights/lights.gpl')
NOT_LED_TO = 'the changes of the steps do not lead to the state that the program shows after the last'


class Profile(Calling):
    def profile(self, *words):
        """The report of a profile, which is written."""
        ended = self.call('profile', *words)
        self.assertEqual((ended.returncode, ended.stderr), (0, b''))
        return ended.stdout.decode()

    def text(self, name):
        return (self.folder / name).read_text()

    def test_a_worked_example(self):
        self.file('a.gpl', SOURCE)
        report = self.profile('--listing', 'a.lst', '--folded', 'a.fold', 'a.gpl')
        self.assertEqual(self.text('a.lst'), LISTING)
        self.assertEqual(self.text('a.fold'), 'S 22\nS;SUB 4\n')
        self.assertEqual(report.splitlines()[:6], [
            'Ended by EXIT at >601D after 26 steps.', '15 of 16 lines of code executed; 6 of 10 ways of branches',
            'routines, by their own steps:', '      own      %     whole    calls  routine',
            '       22   84.6        26        1  S a.gpl:4', '        4   15.4         4        2  SUB a.gpl:18'])
        self.assertIn('lines of code that were never executed, by the first of each stretch:\n'
                      '        1  a.gpl:14: RAND 9\n', report)
        self.assertTrue(report.endswith('deepest stacks:\n        2  bytes of data, at step 22: a.gpl:19\n'
                                        '        1  return addresses, at step 5: a.gpl:18\n'), report)

    def test_steps_of_all_lines_are_the_steps_of_the_run(self):
        for words, steps in (([str(TOP / 'examples/calls/input')], None), ([str(TOP / 'examples/show/input')], None),
                             (['-D', 'BENCH', LIGHTS, '700'], 700)):
            report = self.profile('--listing', 'lst', '--folded', 'fold', *words)
            steps = steps or int(re.search('after ([0-9]+) steps', report)[1])
            rows = re.findall(r'(?m)^. *([0-9,]+) ', self.text('lst'))
            is_ended = report.startswith('Ended by EXIT')
            self.assertEqual(sum(int(times.replace(',', '')) for times in rows), steps + is_ended)
            self.assertEqual(sum(int(row.rpartition(' ')[2]) for row in self.text('fold').splitlines()), steps)
            own = re.findall(r'(?m)^ *([0-9,]+) +[0-9.]+ +[0-9,]+ +[0-9,]+  [A-Z>]', report)
            self.assertEqual(sum(int(times.replace(',', '')) for times in own), steps)

    def test_instructions_are_those_that_the_program_counts(self):
        self.file('a.gpl', SOURCE)
        report = self.profile('--instructions', '--folded', 'fold', 'a.gpl')
        found = re.findall(r'(?m)^ +[0-9,]+ +[0-9.]+ +[0-9,]+ +[0-9,]+ +([0-9,]+) +([0-9,]+)  ', report)
        before = int(re.search('([0-9]+)  before the first step', report)[1])
        ended = program.program().run('run', '28', given=SOURCE).out.decode()
        count = int(re.search('(?m)^count ([0-9]+) ', ended)[1])
        self.assertEqual(sum(int(own.replace(',', '')) for own, _ in found) + before, count)
        self.assertEqual(int(found[0][1].replace(',', '')), count - before)
        folded = [int(row.rpartition(' ')[2]) for row in self.text('fold').splitlines()]
        self.assertEqual(sum(folded) + before, count)

    def test_instructions_of_lines_are_those_of_a_worked_example(self):
        """As tests/rows/gcounts.txt counts them: CALL 36, RTN in the last byte of a GROM 31, EXIT 13, and boot 10. What
        ends the program counts for the routine of the last step."""
        self.file('a.gpl', b'S CALL SUB\n EXIT\n AORG >1FFF\nSUB RTN\n END S\n')
        report = self.profile('--instructions', '--listing', 'lst', '--folded', 'fold', 'a.gpl')
        self.assertIn('lines with the most instructions, and how many for a step:\n'
                      '            36   45.0       36.0  a.gpl:1: S CALL SUB\n'
                      '            31   38.8       31.0  a.gpl:4: SUB RTN\n'
                      '            13   16.2       13.0  a.gpl:2: EXIT\n', report)
        self.assertIn('            10  before the first step\n', report)
        self.assertEqual(self.text('fold'), 'S 36\nS;SUB 44\n')
        self.assertEqual(re.findall(r'(?m)^ {9}1 +([0-9]+) ', self.text('lst')), ['36', '13', '31'])

    def test_data_that_were_executed_are_shown(self):
        """Two planted faults: no EXIT is after the call, and a target is in the middle of an instruction."""
        self.file('a.gpl', DATA.replace(b'>9F', b'>00'))
        report = self.profile('a.gpl')
        self.assertIn('data that were executed, with how often:\n        1  a.gpl:2: BYTE >00\n', report)
        self.file('a.gpl', b'S BR S+3\n ST @>8300,>0B\n END S\n')
        report = self.profile('a.gpl', '3')
        self.assertRegex(report, r'data that were executed, with how often:\n +[0-9]  a.gpl:2: ST @>8300,>0B '
                                 r'\(not at its beginning\)\n')

    def test_addresses_without_a_line_are_shown(self):
        self.file('a.gpl', b'S CALL >6100\n B S\n AORG >200\n BYTE 1\n END S\n')
        self.assertIn('        2  >6100, where no line has a byte\n', self.profile('a.gpl', '5'))

    def test_a_routine_that_calls_itself_counts_once(self):
        self.file('a.gpl', b'N EQU >8300\nS ST @N,3\n CALL DOWN\n EXIT\nDOWN DEC @N\n BS LAST\n CALL DOWN\n'
                           b'LAST RTN\n END S\n')
        report = self.profile('--folded', 'fold', 'a.gpl')
        self.assertIn(' 11   84.6        11        3  DOWN a.gpl:5\n', report)
        self.assertEqual(self.text('fold'), 'S 2\nS;DOWN 4\nS;DOWN;DOWN 4\nS;DOWN;DOWN;DOWN 3\n')

    def test_a_routine_ends_if_its_return_address_is_dropped(self):
        self.file('a.gpl', b'S CALL ONE\n EXIT\nONE CALL TWO\n RTN\nTWO DECT @>8373\n RTN\n END S\n')
        self.profile('--folded', 'fold', 'a.gpl')
        self.assertEqual(self.text('fold'), 'S 1\nS;ONE 2\nS;ONE;TWO 1\n')

    def test_an_assembler_source_with_a_copied_file_and_a_module(self):
        self.file('a.a', b"* main\n REF ADD\n COPY 'PART.SRC'\nS BL @SHOW\n DATA 5,6\n BL @ADD\n JMP $\n END S\n")
        self.file('PART.SRC', b'SHOW MOV *R11+,R1\n INCT R11\n RT\n')
        self.file('b.a', b'* module\n DEF ADD\nADD A R1,R2\n B *R11\n DEC R3\n END\n')
        report = self.profile('--module', 'b.a', '--listing', 'lst', '--folded', 'fold', '--lcov', 'info', 'a.a')
        self.assertEqual(self.text('fold'), 'S 3\nS;SHOW 3\nS;ADD 2\n')
        self.assertEqual(re.findall(r'(?m)^!? *([0-9]*) +([A-Za-z.]+:[0-9]+)', self.text('lst')), [
            ('', 'a.a:1'), ('', 'a.a:2'), ('1', 'PART.SRC:1'), ('1', 'PART.SRC:2'), ('1', 'PART.SRC:3'),
            ('1', 'a.a:4'), ('', 'a.a:5'), ('1', 'a.a:6'), ('1', 'a.a:7'), ('', 'a.a:8'), ('', 'b.a:1'),
            ('', 'b.a:2'), ('1', 'b.a:3'), ('1', 'b.a:4'), ('0', 'b.a:5'), ('', 'b.a:6')])
        self.assertIn('8 of 9 lines of code executed\n', report)
        self.assertIn('FN:1,SHOW\nFNDA:1,SHOW\n', self.text('info'))

    def test_100_000_steps_are_counted_quickly(self):
        """The part of the tool, without the program: it is given the report of a loop with a call."""
        source = b'S INC @>8300\n CALL SUB\n B S\nSUB RTN\n END S\n'
        self.file('a.gpl', source)
        real = program.program().path
        self.file('ti_debug', REPLAY.format(real=program.other(real, 'ti_debug'), bench=real).encode()).chmod(0o755)
        before = resource.getrusage(resource.RUSAGE_CHILDREN).ru_utime
        ended = self.call('profile', 'a.gpl', '100000', TI_BENCH=real, TI_DEBUG=str(self.folder / 'ti_debug'))
        self.assertEqual((ended.returncode, ended.stderr), (0, b''))
        self.assertIn(b'\n   25,000   25.0    25,000   25,000  SUB a.gpl:4\n', ended.stdout)
        self.assertLess(resource.getrusage(resource.RUSAGE_CHILDREN).ru_utime - before, 15)


# a program that writes the report of 100,000 steps of a loop as ti_debug would, and else runs the real one
REPLAY = r'''#!/usr/bin/env python3
import subprocess, sys
if sys.argv[1:] != ['gsteps', '100000']:
    sys.exit(subprocess.run([{real!r}, *sys.argv[1:]]).returncode)
source = sys.stdin.buffer.read()
write, status, value = sys.stdout.write, 0, 0
for turn in range(25000):
    value, number = (value + 1) % 256, 4 * turn
    bits = {{0: 0x30, 1: 0xC0, 0x80: 0x88}}.get(value, 0xC0 if value < 0x80 else 0x80)
    new = '' if bits == status else ' >837C=%02X' % bits
    write('%6d >6000 S%02X D9F R7E INC @>8300 >8300=%02X%s\n' % (number + 1, status, value, new))
    status = bits
    pushed = '' if turn else ' >8380=60,05'
    write('%6d >6002 S%02X D9F R7E CALL >6008 >8373=80%s\n' % (number + 2, status, pushed))
    after = status & ~0x20
    new = '' if after == status else ' >837C=%02X' % after
    write('%6d >6008 S%02X D9F R80 RTN >8373=7E%s\n' % (number + 3, status, new))
    status = after
    write('%6d >6005 S%02X D9F R7E B >6000\n' % (number + 4, status))
write('gpl >6000 S%02X D9F R7E\npad\n' % status)
pad = bytearray(256)
pad[0], pad[0x72], pad[0x73], pad[0x7C], pad[0x80], pad[0x81] = value, 0x9F, 0x7E, status, 0x60, 0x05
for at in range(0, 256, 16):
    write('>%04X %s\n' % (0x8300 + at, pad[at:at + 16].hex(' ').upper()))
write('vdp\n>0000%s\n*\nregs%s\ngrom >6000\n' % (' 00' * 16, ' 00' * 8))
'''


class Failing(Calling):
    """What is refused, and what is not written."""

    def setUp(self):
        super().setUp()
        self.file('a.gpl', SOURCE)
        self.bench = program.program().path
        self.debugger = program.other(self.bench, 'ti_debug')

    def ends(self, words, status, text, **environment):
        ended = self.call('profile', *words, **environment)
        self.assertEqual((ended.returncode, ended.stdout), (status, b''), ended.stderr)
        self.assertIn(text, ended.stderr.decode())

    def test_a_program_that_lies_gets_no_profile(self):
        words = ['--listing', 'out', 'a.gpl']
        for pattern, new, text in (
                (rb'^ +3 .*\n', b'', 'step 3 does not fit the steps before it'),
                (rb'^( +6 .*) R80', rb'\1 R7E', 'step 6 does not fit'),
                (rb'^exit at', b'ended at', 'no end of a run'), (rb'^>8300 00 ', b'>8300 01 ', NOT_LED_TO),
                (rb'^gpl >', b'GPL >', 'no state')):
            with self.subTest(pattern):
                self.ends(words, 1, text, TI_DEBUG=liar(self.folder, self.debugger, 'gsteps', pattern, new))
                self.assertTrue((self.folder / 'lied').exists())
        self.ends(words, 1, 'ended with status 5', TI_DEBUG=liar(self.folder, self.debugger, 'gsteps', status=5))
        self.ends(words, 1, 'are not those that the source is assembled to',
                  TI_DEBUG=liar(self.folder, self.debugger, 'glist', rb'( >6000 BE 00) 03', rb'\1 04'))
        for pattern, new, text in (
                (rb'^count', b'Count', 'no count of instructions'),
                (rb'^( +4 .*) count', rb'\1 Count', 'show one step 4'),
                (rb'^( +4 >....) ', rb'\1  ', 'show one step 4'), (rb'^( +4 .* count) 1', rb'\1 ', 'falls at step 4'),
                (rb'^count [0-9]+', b'count 70', 'falls at step 26'), (rb'^ +26 .*\n', b'', 'show one step 26')):
            with self.subTest(pattern):
                self.ends(['--instructions', 'a.gpl'], 1, text,
                          TI_DEBUG=liar(self.folder, self.debugger, 'gcounts', pattern, new))
        self.ends(['a.gpl'], 3, 'No such file', TI_DEBUG='/none')
        self.assertFalse((self.folder / 'out').exists())

    def test_what_cannot_be_written_is_said(self):
        for option in ('--listing', '--lcov', '--folded'):
            self.ends([option, '/dev/full', 'a.gpl'], 3, '/dev/full: No space left on device')
            self.ends([option, './a.gpl', 'a.gpl'], 2, './a.gpl: the output would replace a file that is read')
        self.assertEqual((self.folder / 'a.gpl').read_bytes(), SOURCE)
        with open('/dev/full', 'wb') as full:
            ended = subprocess.run([TOOLS / 'profile', 'a.gpl'], cwd=self.folder, stdout=full, stderr=subprocess.PIPE)
        self.assertEqual((ended.returncode, ended.stderr),
                         (3, b'tools/profile: standard output: No space left on device\n'))

    def test_words_and_sources_that_do_not_fit(self):
        self.file('b.gpl', b' FOO\n')
        self.file('c.gpl', b' COPY "D.GPL"\n')
        self.file('a.a', b' LI R1\n')
        self.file('d.gpl', b' COPY "PART.GPL"\n')
        self.file('PART.GPL', b' EXIT\n FOO\n')
        for words, status, text in (
                (['a.gpl', '10000001'], 2, 'no number from 0 to 10,000,000'),
                (['--module', 'a.a', 'a.gpl'], 2, '--module'),
                (['-D', 'X', 'a.a'], 2, '-D and --instructions'), (['--instructions', 'a.a'], 2, '-D and --instr'),
                (['--lcov', 'x', '-'], 2, '--lcov takes the name of the source'),
                (['none.gpl'], 3, 'none.gpl: No such'),
                (['b.gpl'], 1, 'b.gpl:1: unknown operation\n     FOO\n'), (['c.gpl'], 1, 'c.gpl:1: missing D.GPL'),
                (['d.gpl'], 1, 'PART.GPL:2: unknown operation\n     FOO\n'), (['a.a'], 1, 'a.a:1: operand count')):
            self.ends(words, status, text)

    def test_a_source_of_standard_input_has_a_profile(self):
        ended = self.call('profile', '-', given=SOURCE)
        self.assertEqual((ended.returncode, ended.stderr), (0, b''))
        self.assertIn(b'\n       22   84.6        26        1  S <stdin>:4\n', ended.stdout)


if __name__ == '__main__':
    import unittest
    unittest.main()
