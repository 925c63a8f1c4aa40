"""Tests of what tools/interpreter prints of the operations of GPL."""
import os
import re
import subprocess
import unittest

from calling import TOOLS, TOP
from lib.dump import words
from lib.program import Program
from lib.repository import read_text
from listing import operations

WORDS = re.compile(r'([0-9A-F]{4})  ((?:[0-9A-F]{4} )*[0-9A-F]{4}) ')


def printed(*names):
    """How the script ends: status, output and fault line."""
    ended = subprocess.run([TOOLS / 'interpreter', '--operation', *names], capture_output=True, text=True)
    return ended.returncode, ended.stdout, ended.stderr


class Operations(unittest.TestCase):
    def test_each_has_its_definition_its_words_and_its_pieces(self):
        status, text, _ = printed('every')
        self.assertEqual(status, 0)
        sections = dict(part.split('\n', 1) for part in text.split('## ')[1:])
        for kind, name, code, _ in operations.operations():
            title = f'MOVE {operations.MOVES[name]}' if kind == 'move' else name
            with self.subTest(title):
                self.assertIn(f'- Code bytes: `>{code:02X}`', sections[title])
                self.assertIn('- Definition: `', sections[title])
                self.assertIn('- Proved by the contract of `run_', sections[title])
                if kind != 'move' or name == 'GromToMemory':
                    self.assertIn('\n| Piece |', sections[title])

    def test_its_words_are_those_of_the_program(self):
        built = words(Program(os.environ['TI_BENCH']).run('interp').out.decode())
        found = [(int(row[1], 16), row[2].split()) for row in map(WORDS.match, printed('every')[1].splitlines()) if row]
        self.assertGreater(len(found), 500)
        for at, shown in found:
            self.assertEqual([f'{built[at + 2 * number]:04X}' for number in range(len(shown))], shown, f'{at:04X}')

    def test_all_pieces_with_their_functions(self):
        text = subprocess.run([TOOLS / 'interpreter', '--pieces'], capture_output=True, text=True, check=True).stdout
        rows = re.findall(r'^\| (\w+) \| `>[0-9A-F]{4}` \| (\d+) \| \d+ \| .* \| `(\w+)`, (crates/.*) \|$', text, re.M)
        self.assertEqual(len(rows), text.count('\n') - 2)
        for label, most, function, path in rows:
            self.assertIn(f'fn {function}<', read_text(TOP / path), label)
            self.assertLessEqual(int(most), 16)

    def test_a_name_in_either_case_and_several(self):
        _, text, _ = printed('inv', 'RTN')
        self.assertEqual(re.findall('## (.*)', text), ['RTN', 'INV'])

    def test_an_unknown_name_is_refused_with_those_there_are(self):
        status, text, fault = printed('INV', 'SCAN')
        self.assertEqual((status, text), (1, ''))
        self.assertRegex(fault, 'no operation SCAN; there are ABS, .* shared and every')


if __name__ == '__main__':
    unittest.main()
