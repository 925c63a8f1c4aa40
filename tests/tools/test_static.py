"""Tests of tests/static."""
import os
import shutil
import subprocess
import unittest

from calling import TOP, Calling


class Static(Calling):
    def read(self, text, **environment):
        """How a reading of a script of this text ends: its status, and what is written."""
        path = self.file('script.py', text)
        ended = subprocess.run([TOP / 'tests/static', path], capture_output=True, text=True, cwd=self.folder,
                               env={**os.environ, 'CI': '', **environment})
        return ended.returncode, ended.stdout

    def test_what_a_module_does_not_have_is_found(self):
        for program, text, found in (('mypy', b'from lib import command\ncommand.write_bytes(1)\n', 'write_bytes'),
                                     ('mypy', b'import os\nos.fsencode(1, 2)\n', 'Too many arguments'),
                                     ('pylint', b'def work():\n    return unknown\n', 'undefined-variable')):
            if shutil.which(program):
                status, written = self.read(text)
                self.assertEqual((status, found in written), (1, True), written)

    def test_a_script_without_a_mistake_passes(self):
        status, written = self.read(b'from lib import command\n\nprint(command.name())\n')
        self.assertEqual((status, written.splitlines()[-1]), (0, '1 scripts and modules read'))

    def test_without_the_programs_it_says_so_and_passes(self):
        for name in ('env', 'python3'):
            (self.folder / 'bin').mkdir(exist_ok=True)
            (self.folder / 'bin' / name).symlink_to(shutil.which(name))
        self.assertEqual(self.read(b'unknown\n', PATH=str(self.folder / 'bin')), (
            0, 'no mypy here, so the scripts are not read by it\nno pylint here, so the scripts are not read by it\n'
               '1 scripts and modules read\n'))


if __name__ == '__main__':
    unittest.main()
