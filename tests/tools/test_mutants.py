"""Tests of tests/mutants: which changes it makes, and that it says what no test notices."""
import importlib.machinery
import importlib.util
import os
import subprocess
import time
import unittest
import unittest.mock

from calling import Calling, TOP, is_running
from lib import command

LOADER = importlib.machinery.SourceFileLoader('mutants', str(TOP / 'tests/mutants'))
mutants = importlib.util.module_from_spec(importlib.util.spec_from_loader('mutants', LOADER))
LOADER.exec_module(mutants)
TEXT = '''"""A text with 1 + 1 and not True."""
def work(given):
    # 2 < 3
    if given <= 2 and not given == 'a 4':
        print('5 or 6')
    return True
'''


class Mutants(Calling):
    def test_numbers_signs_and_calls_are_changed_and_texts_are_not(self):
        found = [(row, new.strip()) for row, _, new in mutants.changes(TEXT)]
        self.assertEqual(found, [(4, "if given < 2 and not given == 'a 4':"),
                                 (4, "if given <= 3 and not given == 'a 4':"),
                                 (4, "if given <= 2 or not given == 'a 4':"), (4, "if given <= 2 and  given == 'a 4':"),
                                 (4, "if given <= 2 and not given != 'a 4':"), (6, 'return False'), (5, 'pass')])
        for row, _, new in mutants.changes(TEXT):
            lines = TEXT.split('\n')
            lines[row - 1] = new
            self.assertTrue(mutants.is_python('\n'.join(lines)))

    def test_the_tests_of_a_file_are_those_that_name_it(self):
        self.assertEqual(mutants.tests_of(TOP / 'tools/raw')[0], ['raw'])
        self.assertEqual(mutants.tests_of(TOP / 'tools/lib/elf.py')[0], ['installation'])
        self.assertEqual(mutants.tests_of(TOP / 'tools/listing/pieces.py')[-1], ['tools/interpreter --check'])
        self.assertEqual(mutants.names_of(TOP / 'tools/labelling/check.py'), ['check', 'archive', 'label'])
        self.assertEqual(mutants.names_of(TOP / 'tools/lib/elf.py'), ['elf', 'install', 'release'])
        self.assertEqual(mutants.names_of(TOP / 'tools/raw'), ['raw'])
        self.assertEqual(mutants.names_of(TOP / 'tools/listing/pieces.py'), ['pieces', 'interpreter'])
        self.assertEqual(mutants.tests_of(TOP / 'tools/labelling/check.py')[0], ['label'])
        nowhere = mutants.tests_of(TOP / 'tools/lib' / '_'.join(['named', 'nowhere.py']))
        self.assertEqual(sum(map(len, nowhere)), len(list((TOP / 'tests/tools').glob('test_*.py'))))

    def test_what_python_keeps_of_a_file_goes_with_its_text(self):
        path = self.file('tools/lib/one.py', b'ONE = 1\n')
        self.file('tools/lib/__pycache__/one.cpython-311.pyc', b'')
        mutants.write(path, 'ONE = 2\n')
        self.assertEqual((path.read_text(), os.listdir(path.parent)), ('ONE = 2\n', ['one.py']))

    def test_a_copy_is_a_repository_with_the_files_that_git_knows(self):
        top, made = self.folder / 'top', self.folder / 'made'
        for name in ['tools/raw', 'tests/run', 'gone', 'unknown']:
            self.file(f'top/{name}', name.encode()).chmod(0o700)
        for words in ['init', '-q'], ['add', 'tools', 'tests', 'gone']:
            subprocess.run(['git', *words], cwd=top, check=True)
        (top / 'gone').unlink()
        with unittest.mock.patch.object(mutants, 'TOP', top):
            mutants.copy(made)
        self.assertEqual(subprocess.check_output(['git', 'ls-files'], cwd=made), b'tests/run\ntools/raw\n')
        self.assertEqual((made / 'tools/raw').read_bytes(), b'tools/raw')
        self.assertEqual(subprocess.check_output(['git', 'log', '--format=%s'], cwd=made), b'A copy\n')
        self.assertTrue(os.access(made / 'tests/run', os.X_OK))

    def runs(self, script):
        """The folder as a repository whose tests are a script."""
        self.file('tests/tools/run', b'#!/bin/sh\n' + script).chmod(0o700)
        return self.folder

    def assert_ended(self, name):
        """That the process whose number a file has is no longer there, soon."""
        begun, last = (self.folder / name).read_text().strip(), time.monotonic() + 20
        while is_running(begun) and time.monotonic() < last:
            time.sleep(0.05)
        self.assertFalse(is_running(begun))

    def test_no_process_of_a_module_is_left(self):
        for script, how in ((b'wait\n', 'which takes too long'), (b'exit 1\n', 'which fails')):
            for trap in b'', b'trap "" TERM\n':
                top = self.runs(trap + b'sleep 600 &\necho $! > begun\n' + script)
                with unittest.mock.patch.object(mutants, 'GRACE', 0.5):
                    self.assertEqual(mutants.noticed(top, [['any']], 2), ('any', how))
                self.assert_ended('begun')

    def test_the_test_that_fails_is_named(self):
        for said, name in ((b'FAIL: test_a (test_raw.Raw.test_a) [0]', 'raw.Raw.test_a'), (b'what', 'raw'),
                           (b'ok\nERROR: setUpClass (test_raw.Raw)\n', 'raw.Raw')):
            top = self.runs(b"echo '" + said + b"'\nexit 1\n")
            self.assertEqual(mutants.noticed(top, [['raw'], ['any']], 20), (name, 'which fails'))
        self.assertIsNone(mutants.noticed(self.runs(b'exit 0\n'), [['raw'], ['any']], 20))

    def test_tests_are_tried_in_their_order_up_to_the_first_that_fails(self):
        top = self.runs(b'echo "$@" >>calls\n[ "$2" != other ]\n')
        self.file('tools/a', b'#!/bin/sh\necho "$@" >>calls\nexit 1\n').chmod(0o700)
        calls = self.folder / 'calls'
        for groups, name, said in (([['raw'], ['any', 'more'], ['tools/a --check']], 'tools/a --check',
                                    '--first raw\n--first any more\n--check\n'),
                                   ([['raw'], ['other', 'more'], ['tools/a --check']], 'other more',
                                    '--first raw\n--first other more\n')):
            calls.unlink(missing_ok=True)
            self.assertEqual(mutants.noticed(top, groups, 20), (name, 'which fails'))
            self.assertEqual(calls.read_text(), said)
            self.assertFalse(mutants.passes(top, name, 20))

    def test_only_a_module_that_passes_without_the_change_notices_it(self):
        path = self.file('tools/raw', b'#!/usr/bin/env python3\nA = 1\n')
        self.file('tests/tools/test_raw.py', b'raw\n')
        with self.assertRaisesRegex(command.Stopped, 'does not pass without a change'):
            mutants.tried(path, self.runs(b'exit 1\n'), 0, 20)
        self.assertEqual(path.read_bytes(), b'#!/usr/bin/env python3\nA = 1\n')


if __name__ == '__main__':
    unittest.main()
