"""Tests of tools/test with programs that lie, full disks, and processes that are ended."""
import os
import subprocess
import unittest

from calling import TOOLS, Calling
from lib.program import other
from lying import liar

SOURCE = b"""A      EQU  >8300
*! test two
*! expect A=2 V@0=2
TWO    ST   @A,2
       ST   V@0,@A
       RTN
*! test three
*! call TWO
*! expect A=3
       END
"""
TRUE = 'a.gpl:9: three: A is 2, expected 3\n'
# what ti_debug is made to say of a run in place of the first match, and what tools/test says of that
RUNS = (
    (rb'>8300=02', b'>8300=03', 'the changes of the steps do not lead to the state that the program shows'),
    (rb'^     4 ', b'     5 ', 'what the program shows of step 4 does not fit the steps before it'),
    (rb'>8300=A5\*114', b'>8300=A4,A5*113', 'two: the state before it is not the one that is asked for'),
    (rb'^exit at', b'gone at', 'the program wrote no end of a run'),
    (rb'^gpl >', b'gpl ', 'the program wrote no state'),
)


class Lying(Calling):
    def setUp(self):
        super().setUp()
        self.file('a.gpl', SOURCE)
        self.bench, self.debugger = os.environ['TI_BENCH'], other(os.environ['TI_BENCH'], 'ti_debug')

    def said(self, text, status=1, **programs):
        """What is said by programs that have lied; nothing is on standard output."""
        ended = self.call('test', '--workers', '1', 'a.gpl', **{'TI_DEBUG': self.debugger, **programs})
        self.assertTrue((self.folder / 'lied').exists())
        self.assertEqual((ended.returncode, ended.stdout), (status, b''), ended.stderr)
        self.assertIn(text, ended.stderr.decode())
        self.assertEqual(ended.stderr.count(b'\n'), 1, ended.stderr)

    def lies(self, real, command, pattern=b'', new=b'', status=None):
        return liar(self.folder, real, command, pattern, new, status)

    def test_without_a_lie_the_tests_are_run(self):
        ended = self.call('test', 'a.gpl', TI_DEBUG=self.debugger)
        self.assertEqual((ended.returncode, ended.stdout.decode()[:len(TRUE)]), (1, TRUE))

    def test_a_run_that_is_not_as_it_is_shown(self):
        for pattern, new, text in RUNS:
            with self.subTest(pattern):
                self.said(text, TI_DEBUG=self.lies(self.debugger, 'gsteps', pattern, new))
        self.said('gsteps', TI_DEBUG=self.lies(self.debugger, 'gsteps', status=5))

    def test_lines_that_are_not_those_of_the_image(self):
        text = 'the bytes of the lines are not those that the source is assembled to'
        self.said(text, TI_DEBUG=self.lies(self.debugger, 'glist', rb' BE 00 02 ', b' BE 00 03 '))
        self.said('no line of a listing', TI_DEBUG=self.lies(self.debugger, 'glist', rb'^name >', b'name '))

    def test_an_image_under_test_that_is_another_one(self):
        # the image of a case goes on to a later GROM
        self.said('the bytes under test are not those that the source is assembled to',
                  TI_BENCH=self.lies(self.bench, 'gasm', rb'\A\xbe\x00\x02(?=[\0-\xff]{9000})', b'\xbe\0\3'))

    def test_lines_of_the_driver_that_are_refused(self):
        path = self.file('refuses', f"""#!/bin/sh
touch lied
cat > given
if grep -q 'CALL TWO' given; then echo 'line 9: bad operand' >&2; exit 1; fi
exec {self.bench} "$@" < given
""".encode())
        path.chmod(0o755)
        self.said('the lines that run a test are refused: line 9: bad operand', TI_BENCH=str(path))

    def test_a_disk_that_is_full(self):
        ended = self.call('test', 'a.gpl', '--junit', '/dev/full')
        self.assertEqual((ended.returncode, ended.stderr), (3, b'tools/test: /dev/full: No space left on device\n'))
        with open('/dev/full', 'wb') as full:
            ended = subprocess.run([TOOLS / 'test', 'a.gpl'], cwd=self.folder, stdout=full, stderr=subprocess.PIPE)
        self.assertEqual((ended.returncode, ended.stderr),
                         (3, b'tools/test: standard output: No space left on device\n'))

    def test_a_process_that_is_ended_is_no_result(self):
        path = self.file('kills', f"""#!/bin/sh
touch lied
if [ "$1" = gsteps ]; then kill -9 $PPID; fi
exec {self.debugger} "$@"
""".encode())
        path.chmod(0o755)
        self.said('a process that ran tests was ended, so not all were run', TI_DEBUG=str(path))


if __name__ == '__main__':
    unittest.main()
