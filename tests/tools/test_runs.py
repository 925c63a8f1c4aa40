"""Tests of whole runs by other runs: what must come of one is said of another."""
import unittest

from lib import program

OBJECT = b'00008        A0000B0000C0000BC060C000230006FOO   200007F57CF\n:\n'
SOURCE = b'S ST @>8300,5\n INC @>8300\n BYTE >0F,>77\n END S\n'
# stores to the last cell and to the last byte of video memory, and then a code byte that is no instruction's
ENDS = b'S ST @>83C1,1\n ST V@>3FFF,2\n BYTE >0F\n END S\n'


class Runs(unittest.TestCase):
    def setUp(self):
        self.bench = program.program()

    def assert_writes_before(self, lines, words, others, source):
        """A run writes these lines and then what another writes, and ends as it does."""
        found, other = (self.bench.run(*each, given=source) for each in (words, others))
        self.assertEqual((found.status, found.out, found.err), (other.status, lines + other.out, other.err))

    def test_each_front_of_an_object_text_is_refused(self):
        for end in range(len(OBJECT)):
            self.assertEqual(self.bench.run('link', given=OBJECT[:end]).status, 1, OBJECT[:end])

    def test_run_is_trace_without_its_lines(self):
        lines = (b'     1 >6000 S00 D9F R7E ST @>8300,>05 C1 >8300=05\n'
                 b'     2 >6003 S00 D9F R7E INC @>8300 C2 >8300=06\n')
        self.assert_writes_before(lines, ('trace', '2'), ('run', '2'), SOURCE)

    def test_where_nothing_is_found_the_report_is_that_of_run(self):
        self.assert_writes_before(b'no hit\n', ('watch', '100', 'pc:0000'), ('run', '100'), ENDS)


if __name__ == '__main__':
    unittest.main()
