"""Tests of what tools/test says if it runs no test, and of tests/lines_left_out."""
import subprocess
import unittest

from calling import TOP, Calling

SMALL = b"""A      EQU  >8300
*! test clear
*! expect A=0
CLEAR  CLR  @A
       RTN
"""


class Refused(Calling):
    def said(self, source, *words, status=2):
        """What is said of a source whose tests cannot be run."""
        self.file('a.gpl', source)
        ended = self.call('test', 'a.gpl', *words)
        self.assertEqual((ended.returncode, ended.stdout), (status, b''), ended.stderr)
        return ended.stderr.decode()

    def test_what_cannot_be_run_is_said(self):
        full = b''.join(b'       GROM >%04X\nL%d     BYTE 1\n' % (grom, grom // 8192) for grom in range(0, 65536, 8192))
        self.assertEqual(self.said(full + b'*! test a\n*! call L7\n*! expect only\n', status=1),
                         'tools/test: a: no test can start, as each GROM has bytes of the source\n')
        self.assertEqual(self.said(b' RTN\n'), 'tools/test: a.gpl: there are no tests\n')
        self.assertEqual(self.said(SMALL, '-k', 'x'), 'tools/test: a.gpl: no test has x in its name\n')
        self.assertEqual(self.said(b'*! tset a\n'), 'a.gpl:1: no test begins before this line: write test NAME first\n'
                         '    *! tset a\n')
        self.assertEqual(self.said(b'ONE    MACRO\n*! test a\n       ENDM\n       ONE\n'),
                         'a.gpl:4: a line of tests in a macro, which would be read at each use\n    *! test a\n')
        self.assertEqual(self.said(b' ST @>8300, 5\n*! test a\n', status=1).splitlines()[0], 'a.gpl:1: bad operand')
        self.assertIn('none.tests', self.said(SMALL, 'none.tests', status=3))
        many = ','.join(str(number % 251) for number in range(80))
        text = ''.join(f'*! given V@{80 * number}={many}\n' for number in range(110))
        self.assertEqual(self.said(f'*! test a\n{text}*! expect only\nA RTN\n'.encode()).splitlines()[0],
                         'a.gpl:1: 8,993 bytes of what is given are copied one by one, and a GROM has no room for '
                         'them; stretches of one byte need none')

    def test_words_that_do_not_fit(self):
        self.file('a.gpl', SMALL)
        for words in ([], ['a.gpl', '--limit', '0'], ['a.gpl', '--fill', '256'], ['a.gpl', '--workers', '0'],
                      ['a.gpl', '--junit', 'a.gpl'], ['a.gpl', '--junit', ''], ['a.gpl', '--lcov', 'a.gpl']):
            self.assertEqual(self.call('test', *words).returncode, 2, words)

    def test_lines_that_no_test_misses_are_said(self):
        """The first line is made up for by the second, the first RTN by the other one, to which no case comes."""
        self.file('a.gpl', b"""A      EQU  >8300
*! test two
*! expect A=2
TWO    ST   @A,1
       ST   @A,2
       RTN
       RTN
""")
        ended = subprocess.run([TOP / 'tests/lines_left_out', '--workers', '2', 'a.gpl'], cwd=self.folder,
                               capture_output=True)
        self.assertEqual((ended.returncode, ended.stderr), (1, b''))
        self.assertEqual(ended.stdout.decode().splitlines(), [
            'a.gpl:4: NOT MISSED: TWO    ST   @A,1', 'a.gpl:6: NOT MISSED:        RTN',
            'a.gpl:7: NOT MISSED:        RTN', '4 lines, 1 missed by a test'])


if __name__ == '__main__':
    unittest.main()
