"""Tests of tests/second_reading: some runs of each part, and a program that changes its answers."""
import os
import pathlib
import re
import shutil
import subprocess
import unittest

from calling import TOP, Calling

SCRIPT = TOP / 'tests/second_reading/run'


class SecondReading(Calling):
    def compared(self, path, *words):
        """How the script ends over a program: status, and the lines that it writes."""
        ended = subprocess.run([SCRIPT, path, *words], capture_output=True, text=True)
        self.assertEqual(ended.stderr, '')
        return ended.returncode, ended.stdout.splitlines()

    def test_the_program_is_as_the_models_say(self):
        status, lines = self.compared(os.environ['TI_BENCH'], '30', '7')
        self.assertEqual((status, lines[-2]), (0, 'none differs'), lines)
        self.assertRegex(lines[-1], r'^\d+ runs, 0 bad$')

    def test_a_program_that_changes_its_answers_is_found(self):
        wrong = self.file('wrong', f'#!/bin/sh\n"{os.environ["TI_BENCH"]}" "$@" | tr 0 1\n'.encode())
        wrong.chmod(0o755)
        status, lines = self.compared(wrong, '20', '7', '--part', 'dis')
        bad = int(re.search(r'(\d+) bad$', lines[-1])[1])
        kept = pathlib.Path(lines[-2].removeprefix('bad ones are in '))
        self.addCleanup(shutil.rmtree, kept)
        self.assertEqual((status, len(list(kept.iterdir()))), (1, bad))
        self.assertTrue(all((each / 'must_out').is_file() for each in kept.iterdir()))


if __name__ == '__main__':
    unittest.main()
