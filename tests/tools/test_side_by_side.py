"""Tests of tests/tools/run: modules side by side, of which no fault is lost."""
import re
import shutil
import signal
import subprocess
import time
import unittest

from calling import TOP, Calling, hearing, is_running

GOOD = """import unittest
class A(unittest.TestCase):
    def test_one(self): pass
    def test_two(self): self.skipTest('not here')
"""
BAD = """import unittest
class B(unittest.TestCase):
    def test_one(self): self.assertEqual(1, 2)
    def test_two(self): [][0]
    def test_three(self): pass
"""
DIES = """import os, signal, unittest
class C(unittest.TestCase):
    def test_one(self): os.kill(os.getpid(), signal.SIGKILL)
"""
LEAVES = """import os, unittest
class D(unittest.TestCase):
    def test_one(self): os._exit(0)
"""
SLOW = """import os, pathlib, time, unittest
class E(unittest.TestCase):
    def test_one(self):
        pathlib.Path('begun').open('a').write(f'{os.getpid()}\\n')
        time.sleep(60)
"""


class SideBySide(Calling):
    def setUp(self):
        super().setUp()
        for name in ('run', 'side_by_side.py'):
            (self.folder / 'tests/tools').mkdir(parents=True, exist_ok=True)
            shutil.copy(TOP / 'tests/tools' / name, self.folder / 'tests/tools' / name)
        (self.folder / 'tools').symlink_to(TOP / 'tools')
        self.run_script = self.folder / 'tests/tools/run'

    def modules(self, **texts):
        for name, text in texts.items():
            self.file(f'tests/tools/test_{name}.py', text.encode())

    def said(self, *words):
        """The status of a run, and its lines without times."""
        ended = subprocess.run([self.run_script, *words], cwd=self.folder, capture_output=True)
        self.assertEqual(ended.stderr, b'')
        return ended.returncode, re.sub(r' in [0-9.]+s', '', ended.stdout.decode()).splitlines()

    def test_what_passes_is_counted_together(self):
        self.modules(a=GOOD, b=GOOD, c=GOOD)
        for count in ('1', '2', '64'):
            status, lines = self.said('--workers', count)
            self.assertEqual((status, lines[-4:]), (0, ['-' * 70, 'Ran 6 tests', '', 'OK (skipped=3)']))
            self.assertEqual(sorted(lines[:-4]), ['a: 2 tests', 'b: 2 tests', 'c: 2 tests'])

    def test_faults_are_shown_in_full_and_counted(self):
        self.modules(a=GOOD, b=BAD, c=BAD)
        status, lines = self.said()
        self.assertEqual((status, lines[-3:]), (1, ['Ran 8 tests', '', 'FAILED (errors=2, failures=2, skipped=1)']))
        for text in ('FAIL: test_one (test_b.B', 'FAIL: test_one (test_c.B', 'ERROR: test_two (test_b.B',
                     'AssertionError: 1 != 2', 'IndexError: list index out of range'):
            self.assertIn(text, '\n'.join(lines))
        self.assertEqual(self.said('a', 'b.B.test_three')[0], 0)

    def test_a_module_whose_process_ends_before_its_time_is_a_fault(self):
        for text, how in ((DIES, 'status -9'), (LEAVES, 'status 0'), ('', 'status 1'), ('1 +', 'status 1')):
            self.modules(a=GOOD, c=text)
            status, lines = self.said()
            self.assertEqual((status, lines[-1]), (1, 'FAILED (errors=1, skipped=1)'), lines)
            self.assertIn(how, next(line for line in lines if line.startswith('ERROR: ')))
            self.assertIn('a: 2 tests', lines)

    def test_after_the_first_fault_no_other_module_is_begun(self):
        self.modules(a=BAD, **{name: SLOW for name in 'bcdef'})
        status, lines = self.said('--first', '--workers', '2', 'a', *'bcdef')
        self.assertEqual((status, lines[0]), (1, 'a: 1 test, FAILED'))
        begun = self.folder / 'begun'
        self.assertLess(len(begun.read_text().split()) if begun.exists() else 0, 3)

    def test_a_signal_ends_the_modules(self):
        self.modules(a=SLOW, b=SLOW)
        begun = self.folder / 'begun'
        with subprocess.Popen([self.run_script, '--workers', '2'], cwd=self.folder, stdout=subprocess.DEVNULL,
                              preexec_fn=hearing) as running:
            latest = time.monotonic() + 20
            while (not begun.exists() or begun.read_text().count('\n') < 2) and time.monotonic() < latest:
                time.sleep(0.05)
            running.send_signal(signal.SIGTERM)
            self.assertEqual(running.wait(20), 128 + signal.SIGTERM)
        processes = begun.read_text().split()
        self.assertEqual((len(processes), [it for it in processes if is_running(it)]), (2, []))


if __name__ == '__main__':
    unittest.main()
