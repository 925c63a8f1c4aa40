"""Tests of the lines of tests that tools/test reads: what is wrong, and what cases they make."""
import unittest

from stepping.places import END, VIDEO
from testing.lines import TestLine, Wrong, said_by
from testing.reading import Reader

NAMES = {'A': 0x8300, 'LABEL': 0x6010, 'PLAY.WON': 0x6020, 'FIVE': 5}
LABELS = {'LABEL': 0x6010, 'PLAY.WON': 0x6020}
# lines, the number of the one that is wrong, and the cause
WRONG = (
    (['call LABEL'], 1, 'no test begins before this line: write test NAME first'),
    (['test'], 1, 'a test has a name: test NAME'),
    (['test a', 'call LABEL', 'expect returns', 'test a'], 4, 'a second test a; the first is at a.tests:1'),
    (['test a', 'call NONE'], 2, 'NONE is no name of the source'),
    (['test a', 'call FIVE'], 2, 'FIVE is no label'),
    (['test a', 'call'], 2, 'a call is written call LABEL, or call LABEL bytes LIST'),
    (['test a', 'call LABEL LABEL'], 2, 'a call is written call LABEL, or call LABEL bytes LIST'),
    (['test a', 'call LABEL bites 5'], 2, 'a call is written call LABEL, or call LABEL bytes LIST'),
    (['test a', 'from LABEL LABEL'], 2, 'a stretch is written from LABEL, or from LABEL to LABEL'),
    (['test a', 'from LABEL to'], 2, 'a stretch is written from LABEL, or from LABEL to LABEL'),
    (['test a', 'from LABEL at LABEL'], 2, 'a stretch is written from LABEL, or from LABEL to LABEL'),
    (['test a', 'call LABEL', 'from LABEL'], 3, 'a second routine in one test'),
    (['test a', 'expect returns'], 1, 'a says no routine: write call LABEL, or from LABEL to LABEL'),
    (['test a', 'call LABEL'], 1, 'nothing is expected of a'),
    (['test a', 'expect'], 2, 'nothing is expected'),
    (['test a', 'call LABEL', 'A -> steps', '1 .'], 4, 'nothing is expected of a'),
    (['test a', 'call LABEL', 'A -> steps'], 1, 'the table of a has no row'),
    (['test a', 'A -> steps', '1'], 3, 'the table has 2 columns, and this row 1'),
    (['test a', '-> steps', '1 2'], 3, 'the table has 1 column, and this row 2'),
    (['test a', 'A ->'], 2, 'after -> stand the columns of what is expected'),
    (['test a', 'A -> B -> C'], 2, '-> stands twice'),
    (['test a', 'A -> steps', 'A -> steps'], 3, 'a second table in one test'),
    (['test a', 'A -> steps', '256 1'], 3, '256 is 256, which does not fit 1 byte'),
    (['test a', 'A -> ends', '1 6'], 3, '6: a program stops by a reason from 1 to 5'),
    (['test a', 'steps -> A', '1 1'], 3, 'steps cannot be given'),
    (['test a', 'NONE -> A'], 2, 'the source has no name NONE'),
    (['test a', 'given A'], 2, 'A: what is given is written PLACE=VALUE'),
    (['test a', 'given A<=5'], 2, 'A<=5: what is given is written PLACE=VALUE'),
    (['test a', 'given A='], 2, 'nothing is no value'),
    (['test a', 'given visits@LABEL=1'], 2, 'visits@LABEL cannot be given'),
    (['test a', 'given bit@H=2'], 2, 'bit@H: a bit is 0 or 1'),
    (['test a', "given A=''"], 2, 'A: a value without bytes'),
    (['test a', "given R@7=1,2"], 2, 'R@7: 1,2 has 2 bytes, and there is room for 1'),
    (['test a', "given row@0+30='ABC'"], 2, "row@0+30: 'ABC' has 3 bytes, and there is room for 2"),
    (['test a', 'given A:5=1'], 2, 'A:5: a number has 1 to 4 bytes'),
    (['test a', 'fill'], 2, 'fill has one byte, and stands once in a test'),
    (['test a', 'fill 256'], 2, '256 is 256, which does not fit 1 byte'),
    (['test a', 'fill 1', 'fill 2'], 3, 'fill has one byte, and stands once in a test'),
    (['test a', 'limit 0'], 2, '0: the steps are from 1 to 100,000'),
    (['test a', 'limit 100001'], 2, '100001: the steps are from 1 to 100,000'),
    (['test a', 'limit 5', 'limit 5'], 3, 'limit has one number, and stands once in a test'),
    (['test a', 'expect A'], 2,
     'A: what is expected is written PLACE=VALUE, only, returns, exits or stops REASON'),
    (['test a', 'expect stops'], 2, 'stops: a program stops by a reason from 1 to 5'),
    (['test a', 'expect stops 0'], 2, '0: a program stops by a reason from 1 to 5'),
    (['test a', 'expect returns exits'], 2, 'a second end of one test'),
    (['test a', 'expect only steps'], 2, 'steps has no bytes'),
    (['test a', 'expect ends=1'], 2,
     'ends is a column of a table; a line has returns, exits or stops REASON'),
    (['test a', 'expect bit@H=2'], 2, 'bit@H: a bit is 0 or 1'),
    (['test a', 'expect A=256..300'], 2, '256..300 does not fit A'),
    (['test a', 'expect A>=-1'], 2, '-1 is below 0, and numbers are compared without sign'),
    (['test a', 'expect A=9..1'], 2,
     '9..1 is no range; it goes from a number of 0 or more up to another one'),
    (['test a', 'expect A<=1..2'], 2, '<=1..2: a range goes with = or !='),
    (['test a', "expect row@0<=5"], 2, 'row@0: a row has no range'),
    (['test a', 'from LABEL', 'expect returns'], 1,
     'returns goes with call: what is begun by from has no place to return to'),
    (['test a', 'calls LABEL'], 2,
     'calls: a line begins with test, call, from, given, fill, limit, expect, or is a table with ->'),
)


class Lines(unittest.TestCase):
    def read(self, *said):
        reader = Reader(NAMES, LABELS, lambda line: None)
        return reader.read(TestLine('a.tests', number, text, said_by(text)) for number, text in enumerate(said, 1))

    def test_wrong_lines_are_named(self):
        for said, number, cause in WRONG:
            with self.assertRaises(Wrong, msg=said) as raised:
                self.read(*said)
            self.assertEqual((raised.exception.line.number, raised.exception.cause), (number, cause))

    def test_a_table_is_cases_beside_what_holds_for_all(self):
        test, = self.read('test a b', 'call LABEL', 'given A=1', 'A+1 -> A ends', '5 6 .', '* a remark', '. 7 2',
                          'expect steps<=9 only A', 'limit 50', 'fill >20')
        first, second = test.cases()
        self.assertEqual((first.title, second.title), ('a b, A+1=5', 'a b'))
        self.assertEqual((len(first.given), len(second.given), len(first.checks), len(second.checks)), (2, 1, 2, 2))
        self.assertEqual((str(first.ending), str(second.ending)), ('a return', 'a stop by reason 2'))
        self.assertEqual((first.limit, first.fill, first.line.number, second.line.number), (50, 0x20, 5, 7))

    def test_what_is_given_is_put_into_the_memory(self):
        test, = self.read('test a', 'call LABEL bytes 1,2', 'given A=1 bit@COND=1 bit@H=0',
                          "given V@>0010='AB' A+1:4=1", 'limit 1', 'expect stops 1')
        memory = bytearray(b'\xff' * END)
        memory[0x837C] = 0x80
        for given in test.given:
            given.put(memory)
        self.assertEqual((memory[0x8300:0x8306], memory[0x837C], memory[VIDEO + 15:VIDEO + 19], len(memory)),
                         (b'\1\0\0\0\1\xff', 0x20, b'\xffAB\xff', END))
        self.assertEqual((test.routine.after_call, test.routine.label, test.limit), (b'\1\2', 'LABEL', 1))

    def test_a_failure_of_the_end_is_on_the_line_that_says_it(self):
        tests = self.read('test a', 'call LABEL', 'expect exits', 'test b', 'call LABEL', 'A -> ends', '1 exits', '2 .',
                          'expect only', 'test c', 'call LABEL', 'expect only', 'limit 100000', 'test d', 'call LABEL',
                          'A -> ends', '1 1', '2 .', 'expect exits')
        self.assertEqual([case.ending_line.number for test in tests for case in test.cases()], [3, 7, 8, 10, 17, 19])

    def test_a_row_may_expect_what_its_test_does(self):
        test, = self.read('test a', 'call LABEL', 'A -> steps', '1 .', '2 5', 'expect A=1')
        self.assertEqual([len(case.checks) for case in test.cases()], [1, 2])

    def test_a_test_of_a_source_calls_the_next_label(self):
        reader = Reader(NAMES, LABELS, lambda line: f'L{line.number}')
        test, = reader.read([TestLine('a.gpl', 4, '', 'test a', 4), TestLine('a.gpl', 5, '', 'expect only', 5)])
        self.assertEqual((test.routine.label, test.routine.is_called), ('L4', True))

    def test_how_tests_end_by_themselves(self):
        for said, wanted in ((['call LABEL'], 'a return'), (['from LABEL'], 'EXIT'),
                             (['from LABEL to PLAY.won'], 'an end at the label')):
            test, = self.read('test a', *said, 'expect only')
            self.assertEqual(str(next(test.cases()).ending), wanted)


if __name__ == '__main__':
    unittest.main()
