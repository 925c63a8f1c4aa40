"""Tests of tests/width."""
import shutil
import subprocess
import unittest

from calling import TOP, Calling

LINES = {'crates/one/src/lib.rt': ['a' * 120, 'a' * 121], 'crates/one/proofs/Lib.antt': ['→' * 160],
         'crates/two/proofs/f/Answers.antt': ['x' * 161, 'x' * 161, 'x'], 'crates/two/out/wide.rt': ['x' * 999]}


class Width(Calling):
    def run_width(self, *words):
        ended = subprocess.run([self.folder / 'tests/width', *words], capture_output=True)
        self.assertEqual(ended.stderr, b'')
        return ended.returncode, ended.stdout.decode().splitlines(), (self.folder / 'tests/wide_lines').read_text()

    def test_wide_lines_may_not_become_more(self):
        for path, lines in LINES.items():
            self.file(path, '\n'.join(lines).encode())
        self.file('tests/wide_lines', b'one/src 1\ntwo/proofs 3\nzero/specs 1\n')
        shutil.copy(TOP / 'tests/width', self.folder / 'tests/width')
        for name in ('tests/lib', 'tools/lib'):
            shutil.copytree(TOP / name, self.folder / name)
        self.assertEqual(self.run_width()[:2], (0, []))
        fewer = 'one/src 1\ntwo/proofs 2\n'
        self.assertEqual(self.run_width('--write'), (0, [], fewer))
        self.file('crates/two/proofs/Lib.antt', b'y' * 161)
        said = ('two/proofs: 3 wide lines, and there may be 2: crates/two/proofs/Lib.antt:1'
                ' crates/two/proofs/f/Answers.antt:1 crates/two/proofs/f/Answers.antt:2')
        for word in ((), ('--write',)):
            self.assertEqual(self.run_width(*word), (1, [said], fewer))
        (self.folder / 'tests/wide_lines').unlink()
        self.assertEqual(self.run_width('--write'), (0, [], 'one/src 1\ntwo/proofs 3\n'))


if __name__ == '__main__':
    unittest.main()
