"""Tests of tests/documents and of examples/run with --write."""
import os
import subprocess
import unittest

from calling import TOP, Calling

DOCUMENT = '''# A document

    $ echo one; echo two
    one
    2

    $ cat > kept <<'END'
    three
    END
    $ cat kept; seq 9; echo end
    ..
    9
    the end

Text.
'''


class Documents(Calling):
    def documents(self, *words):
        return subprocess.run([TOP / 'tests/documents', *words, os.environ['TI_BENCH'], 'page.md'], capture_output=True,
                              cwd=self.folder)

    def test_what_a_command_writes_is_compared(self):
        self.file('page.md', DOCUMENT.encode())
        ended = self.documents()
        self.assertEqual((ended.returncode, ended.stdout.splitlines()[-1]), (1, b'3 commands, 2 bad'))
        self.assertEqual((self.folder / 'page.md').read_text(), DOCUMENT)

    def test_a_text_without_its_end_is_named(self):
        self.file('page.md', b"    $ cat <<'END'\n    one\n\nText.\n")
        ended = self.documents()
        self.assertEqual((ended.returncode, ended.stderr), (1, b"tests/documents: no line END after: $ cat <<'END'\n"))

    def test_what_a_command_writes_is_written(self):
        self.file('page.md', DOCUMENT.encode())
        ended = self.documents('--write')
        said = [b'written anew: page.md: $ echo one; echo two', b'written anew: page.md: $ cat kept; seq 9; echo end',
                b'3 commands, 0 bad']
        self.assertEqual((ended.returncode, ended.stdout.splitlines()), (0, said))
        wanted = DOCUMENT.replace('    2\n', '    two\n').replace('the end', 'end')
        self.assertEqual((self.folder / 'page.md').read_text(), wanted)
        self.assertEqual(self.documents().returncode, 0)


class Examples(Calling):
    SOURCE = b'S ST @>8300,5\n EXIT\n END S\n'

    def setUp(self):
        super().setUp()
        for name, words, expected in (('good', b'gasm\n', bytes.fromhex('BE 00 05 0B')), ('wrong', b'gasm\n', b'x'),
                                      ('refused', b'asm\n', b'old')):
            self.file(f'mine/{name}/words', words)
            self.file(f'mine/{name}/input', self.SOURCE)
            self.file(f'mine/{name}/expected', expected)

    def examples(self, *words):
        """How a run over these examples ends: its status, its lines, and what is expected after it."""
        ended = subprocess.run([TOP / 'examples/run', '--folder', 'mine', *words, os.environ['TI_BENCH']],
                               capture_output=True, cwd=self.folder)
        self.assertEqual(ended.stderr, b'')
        kept = {path.parent.name: path.read_bytes() for path in self.folder.glob('mine/*/expected')}
        return ended.returncode, ended.stdout.decode().splitlines(), kept

    def test_what_is_not_as_expected_is_named_and_left(self):
        status, lines, kept = self.examples()
        self.assertEqual((status, lines), (1, ['example good: as expected', 'example refused: not as expected',
                                               'example wrong: not as expected']))
        self.assertEqual((kept['refused'], kept['wrong']), (b'old', b'x'))

    def test_what_an_example_writes_becomes_what_is_expected(self):
        status, lines, kept = self.examples('--write')
        self.assertEqual((status, lines), (1, ['example good: as expected', 'example refused: not as expected',
                                               'example wrong: written anew']))
        self.assertEqual((kept['refused'], kept['wrong'], kept['good']), (b'old', kept['good'],
                                                                         bytes.fromhex('BE 00 05 0B')))
        self.assertEqual(self.examples()[1][2], 'example wrong: as expected')
        (self.folder / 'mine/refused/words').unlink()
        (self.folder / 'mine/good/expected').write_bytes(b'x')
        self.assertEqual(self.examples('--write')[:2], (0, ['example good: written anew', 'example wrong: as expected']))


if __name__ == '__main__':
    unittest.main()
