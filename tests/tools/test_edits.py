"""Tests of the edits that must fail, and of the shares in which more-edits/run tries them."""
import importlib.machinery
import importlib.util
import pathlib
import subprocess
import sys
import tempfile
import unittest

from lib.repository import TOP, crates, read_text


def script():
    """more-edits/run as a module."""
    loader = importlib.machinery.SourceFileLoader('more_edits', str(TOP / 'more-edits/run'))
    module = importlib.util.module_from_spec(importlib.util.spec_from_loader('more_edits', loader))
    sys.dont_write_bytecode, kept = True, sys.dont_write_bytecode
    loader.exec_module(module)
    sys.dont_write_bytecode = kept
    return module


def pairs(path):
    """The marks and the texts of the lines of an edit."""
    lines = [line.partition(': ') for line in read_text(path).split('\n')]
    return [(mark, text) for mark, _, text in lines if mark in ('file', 'old', 'new')]


class Edits(unittest.TestCase):
    def edits(self):
        """Each edit of the gate and of more-edits, with its crate."""
        for path in sorted(TOP.glob('crates/*/must-fail/*.edit')):
            yield path.parent.parent.name, path
        for path in sorted(TOP.glob('more-edits/*/*.edit')):
            yield path.parent.name, path

    def test_each_edit_can_be_applied(self):
        for crate, path in self.edits():
            with self.subTest(path=path):
                text = None
                for mark, said in pairs(path):
                    if mark == 'file':
                        self.assertTrue(said.startswith('src/'), 'an edit turns code')
                        text = read_text(TOP / 'crates' / crate / said)
                    elif mark == 'old':
                        self.assertEqual(text.count(said), 1, said)
                self.assertIsNotNone(text)

    def test_no_name_stands_twice(self):
        names = [(crate, path.name) for crate, path in self.edits()]
        self.assertEqual(len(names), len(set(names)))


class Shares(unittest.TestCase):
    def test_each_crate_is_in_one_share(self):
        run = script()
        shared = [name for share in run.shares(run.edits()) for name in share]
        self.assertEqual(sorted(shared), sorted(run.edits()))
        self.assertTrue(0 <= run.number_of_share() < run.SHARES)

    def test_a_share_is_named_by_its_number_or_by_its_turn(self):
        for words, status, said in ((['--share'], 3, r'more-edits: share \d+ of 12: '),
                                    (['--share', '11', '--minutes', '1'], 3, 'more-edits: share 11 of 12: '),
                                    (['--share', '12'], 2, ''), (['--share', '-1'], 2, ''), (['--share', 'x'], 2, ''),
                                    (['lane_scan', '--share', '1'], 2, ''), (['no_crate'], 2, '')):
            # without rt on the PATH nothing is tried
            ended = subprocess.run([sys.executable, TOP / 'more-edits/run', *words], capture_output=True, text=True,
                                   env={'PATH': '/nowhere'})
            self.assertEqual(ended.returncode, status, (words, ended.stderr))
            self.assertRegex(ended.stdout, f'^{said}')

    def test_shares_cost_about_the_same(self):
        run = script()
        counts = run.edits()
        costs = [sum(run.CHECK + counts[name] for name in share) for share in run.shares(counts)]
        self.assertLess(max(costs), 1.5 * min(costs))

    def test_a_copy_has_the_crates_that_are_needed(self):
        with tempfile.TemporaryDirectory() as folder:
            script().copy_of(['lane_scan'], pathlib.Path(folder))
            copied = {path.name for path in pathlib.Path(folder, 'crates').iterdir()}
            self.assertEqual(set(crates(pathlib.Path(folder))), copied)
            self.assertLess(len(copied), len(crates()))
