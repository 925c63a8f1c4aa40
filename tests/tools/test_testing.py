"""Tests of tools/test: what it says of routines that do what their tests say, and of others."""
import random
import re
import unittest
import xml.etree.ElementTree

from calling import TOP, Calling

ROUTINES = TOP / 'tests/tools/routines'
FAILING = b"""A      EQU  >8300
B      EQU  >8302
P      EQU  >8304
*! test value
*!  A -> A B:2   P:2
*!  1    3 >0102 5
*! test text
*! expect V@0='HELLO' row@0='HELLO' row@1+3='AB'
*! test bits
*! expect bit@COND=1 bit@H=0 visits@TWO=2 steps>=6
*! test only
*! expect only A
*! test end
*! expect stops 2
TWO    ST   @A,2
       DST  @B,>0101
       ST   V@0,'J'
       CZ   @A
       RTN
*! test stop
*! expect returns
STOP   ST   @>83C2,@A
       RTN
*! test exits
*! expect only
EXITS  EXIT
*! test loops
*! limit 30
*! expect only
LOOPS  B    LOOPS
*! test too few
*! call FETCHA bytes 1,2,3
*! expect only A
*! test as many
*! call FETCHA bytes 1
*! expect only A
*! test stretch
*! from LOOPS to TWO
*! limit 20
*! expect only
FETCHA FETCH @A
       RTN
*! test outside
*! expect only
OUT    B    >FF00
*! test a stack
*! given >8373=>C0
*! expect only
LAST   RTN
"""
SAID = """a.gpl:6: value, A=1: A is 2, expected 3
    *!  1    3 >0102 5
a.gpl:15: note: last changed in step 1 by this line: TWO    ST   @A,2
a.gpl:6: value, A=1: B:2 is >0101, expected >0102
    *!  1    3 >0102 5
a.gpl:16: note: last changed in step 2 by this line: DST  @B,>0101
a.gpl:6: value, A=1: P:2 is 42405, expected 5
    *!  1    3 >0102 5
a.gpl:6: note: no step changed what is wrong
a.gpl:8: text: V@0 is 'J',>A5*4, expected 'HELLO'
    *! expect V@0='HELLO' row@0='HELLO' row@1+3='AB'
a.gpl:17: note: last changed in step 3 by this line: ST   V@0,'J'
a.gpl:8: text: row@0 is 'J',>A5*31, expected 'HELLO'
    *! expect V@0='HELLO' row@0='HELLO' row@1+3='AB'
a.gpl:17: note: last changed in step 3 by this line: ST   V@0,'J'
a.gpl:8: text: row@1+3 is >A5*2, expected 'AB'
    *! expect V@0='HELLO' row@0='HELLO' row@1+3='AB'
a.gpl:8: note: no step changed what is wrong
a.gpl:10: bits: bit@COND is 0, expected 1
    *! expect bit@COND=1 bit@H=0 visits@TWO=2 steps>=6
a.gpl:18: note: last changed in step 4 by this line: CZ   @A
a.gpl:10: bits: bit@H is 1, expected 0
    *! expect bit@COND=1 bit@H=0 visits@TWO=2 steps>=6
a.gpl:10: note: no step changed what is wrong
a.gpl:10: bits: visits@TWO is 1, expected 2
    *! expect bit@COND=1 bit@H=0 visits@TWO=2 steps>=6
a.gpl:10: bits: steps is 5, expected >=6
    *! expect bit@COND=1 bit@H=0 visits@TWO=2 steps>=6
a.gpl:12: only: changed, but not named after only: B (>8302) was >A5 and is >01; and 2 more bytes
    *! expect only A
a.gpl:16: note: last changed in step 2 by this line: DST  @B,>0101
a.gpl:14: end: it ended by a return, expected a stop by reason 2
    *! expect stops 2
a.gpl:21: stop: it ended by a stop by reason 2, expected a return
    *! expect returns
a.gpl:22: note: it came to this line: STOP   ST   @>83C2,@A
a.gpl:24: exits: it ended by EXIT, expected a return
    *! test exits
a.gpl:26: note: it came to this line: EXITS  EXIT
a.gpl:27: loops: it did not end in 30 steps, expected a return
    *! test loops
a.gpl:30: note: it came to this line: LOOPS  B    LOOPS
a.gpl:31: too few: it returned after 1 of the 3 bytes after the call, expected a return
    *! test too few
a.gpl:37: stretch: it did not end in 20 steps, expected an end at the label
    *! test stretch
a.gpl:30: note: it came to this line: LOOPS  B    LOOPS
a.gpl:43: outside: it left the source for >FF00, expected a return
    *! test outside
a.gpl:46: a stack: it was not begun: a stop by reason 3, expected a return
    *! test a stack
13 cases of 13 tests, 12 failed; 80 steps
"""
SMALL = b"""A      EQU  >8300
*! test twice
*!  A  -> A
*!  1     2
*!  2     5
TWICE  ADD  @A,@A
       RTN
*! test clear & <more> #1
*! expect A=0
CLEAR  CLR  @A
       RTN
"""


class Testing(Calling):
    def run_of(self, source, *words, status=0, **more):
        """The output of a source with its tests."""
        self.file('a.gpl', source)
        ended = self.call('test', 'a.gpl', *words, **more)
        self.assertEqual((ended.returncode, ended.stderr), (status, b''), ended.stdout)
        return ended.stdout.decode()

    def test_each_routine_does_what_its_tests_say(self):
        for name, cases, tests in (('lists', 24, 8), ('numbers', 56, 14), ('texts', 47, 15)):
            ended = self.call('test', str(ROUTINES / f'{name}.gpl'))
            self.assertEqual((ended.returncode, ended.stderr), (0, b''), ended.stdout)
            said = f'{cases} cases of {tests} tests, 0 failed; '
            self.assertTrue(ended.stdout.decode().startswith(said), ended.stdout)

    def test_what_does_not_hold_is_said(self):
        self.assertEqual(self.run_of(FAILING, status=1).splitlines(), SAID.splitlines())

    def test_a_planted_fault_is_found_at_its_line(self):
        for name, test, old, new, last, row in (
                ('numbers.gpl', 'decim', "ADD  @W+3,'0'", "ADD  @W+3,'1'", 'ST   @DIG(@I),@W+3',
                 "DIG is '11111', expected '00000'"),
                ('more.gpl', 'queue', 'AND  @HEAD+1,15', 'AND  @HEAD+1,31', 'DINC @HEAD', 'HEAD:2 is 16, expected 0')):
            for file in ROUTINES.glob('*.gpl'):
                self.file(file.name, file.read_bytes().replace(old.encode(), new.encode()))
            main = 'lists.gpl' if name == 'more.gpl' else name
            said = self.call('test', '-k', test, main).stdout.decode()
            self.assertIn(f': {row}\n', said)
            number = (self.folder / name).read_text().splitlines().index(f'       {last}') + 1
            note = f'{name}:{number}: note: last changed in step [0-9]+ by this line: {re.escape(last)}'
            self.assertRegex(said, note)

    def test_the_state_before_is_the_one_that_is_given(self):
        chance = random.Random(7)
        areas = [('>8300', 0xC2), ('V@>0000', 768), ('V@>3000', 100), ('V@>3FF0', 16), ('R@0', 8)]
        given = []
        for place, size in areas:
            data = bytes(chance.randrange(256) for _ in range(size))
            if place == '>8300':
                # the pointers of both stacks, and a stack for the call
                data = data[:0x72] + b'\x9f\x7e' + data[0x74:]
            rows = [data[at:at + 16] for at in range(0, size, 16)]
            given += [(f'{place}+{16 * number}', ','.join(map(str, row))) for number, row in enumerate(rows)]
        given.append(('V@>1000', "'X'*300"))
        # the call stores its return address
        kept = [pair for pair in given if pair[0] not in ('>8300+112', '>8300+128')]
        lines = [*(f'*! given {place}={value}' for place, value in given),
                 *(f'*! expect {place}={value}' for place, value in kept)]
        self.run_of('\n'.join(['*! test nothing', *lines, '*! expect steps=1 only', 'NOTHIN RTNC', '']).encode())

    def test_rows_are_given_where_the_registers_place_them(self):
        self.run_of(b"""*! test rows
*! given row@1='ABC' V@>0421='X' R@2=1
*! expect V@>0420='AXC' row@1='AXC' row@1+1='XC' steps=1 only
NOTHIN RTNC
""")

    def test_what_is_not_given_is_filled(self):
        source = b"""*! test usual
*! expect >8300=>A5*114 >8374=>A5*6 V@0=>A5*768 V@768=0 R@0=0*8
*! test zero
*! fill 0
*! expect >8300=0*114 V@0=0*769 bit@COND=0
NOTHIN RTNC
"""
        self.run_of(source)
        self.assertIn('usual: >8300: byte 0 is >01, expected >A5', self.run_of(source, '--fill', '1', status=1))

    def test_tap_and_xml_have_each_case(self):
        said = self.run_of(SMALL, '--tap', '--junit', 'a.xml', status=1)
        self.assertEqual(said.splitlines(), [
            'TAP version 13', '1..3', 'ok 1 - twice, A=1', 'not ok 2 - twice, A=2',
            '# a.gpl:5: twice, A=2: A is 4, expected 5', '#     *!  2     5',
            '# a.gpl:6: note: last changed in step 1 by this line: TWICE  ADD  @A,@A', 'ok 3 - clear & <more> \\#1'])
        suite = xml.etree.ElementTree.parse(self.folder / 'a.xml').getroot()
        self.assertEqual((suite.tag, suite.get('name'), suite.get('tests'), suite.get('failures')),
                         ('testsuite', 'a.gpl', '3', '1'))
        self.assertEqual([(it.get('classname'), it.get('name'), len(it)) for it in suite], [
            ('twice', 'twice, A=1', 0), ('twice', 'twice, A=2', 1), ('clear & <more> #1', 'clear & <more> #1', 0)])
        self.assertEqual(suite[1][0].get('message'), 'A is 4, expected 5')
        self.assertEqual(suite[1][0].text.splitlines(), [row[2:] for row in said.splitlines()[4:7]])

    def test_the_lines_that_were_executed_are_written(self):
        """TWICE is called twice and CLEAR once; each RTN too."""
        self.run_of(SMALL + b'NEVER  RTN\n', '--lcov', 'a.info', status=1)
        rows = (self.folder / 'a.info').read_text().splitlines()
        self.assertEqual([row for row in rows if row[:3] in ('SF:', 'DA:')], [
            f'SF:{self.folder.resolve() / "a.gpl"}', 'DA:6,2', 'DA:7,2', 'DA:10,1', 'DA:11,1', 'DA:12,0'])

    def test_an_exit_and_a_stop_are_executed_lines_too(self):
        self.run_of(b"""*! test exit
*! expect exits
EXITS  EXIT
*! test stop
*! expect stops 2
STOP   ST   @>83C2,1
""", '--lcov', 'a.info')
        self.assertIn('DA:3,1\nDA:6,1\n', (self.folder / 'a.info').read_text())

    def test_names_of_other_letters(self):
        source = 'A      EQU  >8300\n*! test Größe \x1b[1m\n*! expect A=1\nSIZE   RTN\n'.encode()
        said = self.run_of(source, '--tap', '--junit', 'a.xml', status=1)
        self.assertIn('not ok 1 - Größe \\\\x1b[1m\n'.replace('\\\\', '\\'), said)
        suite = xml.etree.ElementTree.parse(self.folder / 'a.xml').getroot()
        self.assertEqual(suite[0].get('name'), 'Größe \\x1b[1m')
        self.assertIn('Größe \\x1b[1m: A is 165, expected 1', suite[0][0].text)

    def test_tests_are_listed_and_chosen_by_name(self):
        self.assertEqual(self.run_of(SMALL, '--list'), 'a.gpl:2: twice: calls TWICE, 2 cases\n'
                         'a.gpl:8: clear & <more> #1: calls CLEAR, 1 case\n')
        self.assertEqual(self.run_of(SMALL, '-k', 'lea'), '1 case of 1 test, 0 failed; 2 steps\n')

    def test_tests_in_files_and_by_standard_input(self):
        self.file('more.tests', b'* a remark\n\ntest more\n*! call CLEAR\nexpect A = 1\n')
        said = self.run_of(SMALL, '-k', 'more', 'more.tests', status=1)
        self.assertEqual(said.splitlines()[:3], ['more.tests:5: more: A is 0, expected 1', '    expect A = 1',
                                                 'a.gpl:10: note: last changed in step 1 by this line: CLEAR  CLR  @A'])
        ended = self.call('test', '-', 'more.tests', given=SMALL)
        self.assertEqual(ended.stdout.decode().splitlines()[0], '<stdin>:5: twice, A=2: A is 4, expected 5')

    def test_a_line_of_a_macro_is_shown_with_its_use(self):
        self.file('m.gpl', b'SET    MACRO CELL,TO\n       ST   \\CELL,\\TO\n       ENDM\n')
        source = b" COPY 'm.gpl'\n*! test one\n*! expect >8300=2\nONE    SET  @>8300,1\n       RTN\n"
        said = self.run_of(source, status=1)
        self.assertEqual(said.splitlines()[2:4], [
            'a.gpl:4: note: last changed in step 1 by this line: ST   @>8300,1 (in SET of m.gpl:2)',
            '1 case of 1 test, 1 failed; 2 steps'])

    def test_a_whole_cartridge_of_several_files(self):
        """The examples have tests that all pass."""
        lights = TOP / 'examples/lights'
        for words, cases in (['lights.tests'], 6), (['lights.tests', 'game.tests', '-D', 'BENCH'], 7):
            files = [str(lights / word) if '.' in word else word for word in ['lights.gpl', *words]]
            ended = self.call('test', *files)
            self.assertEqual((ended.returncode, ended.stderr), (0, b''), ended.stdout)
            self.assertTrue(ended.stdout.startswith(b'%d cases of ' % cases), ended.stdout)

    def test_an_end_with_a_label_and_a_source_without_end(self):
        for end in (b'LAST   END  TWO', b'LAST   END', b'       END', b'', b'LAST'):
            source = b'*! test two\n*! expect >8300=2\nTWO    ST   @>8300,2\n       RTN\n       B    TWO\n' + end
            self.assertEqual(self.run_of(source), '1 case of 1 test, 0 failed; 2 steps\n', end)

    def test_the_results_are_in_the_order_of_the_tests(self):
        rows = b''.join(b'*!  %d    %d\n' % (number, number) for number in range(12))
        source = b'*! test same\n*!  >8300 -> >8300\n' + rows + b'SAME   RTN\n'
        for workers in ('1', '3'):
            said = self.run_of(source, '--tap', '--workers', workers)
            self.assertEqual(said.splitlines()[2:], [f'ok {number + 1} - same, >8300={number}' for number in range(12)])


if __name__ == '__main__':
    unittest.main()
