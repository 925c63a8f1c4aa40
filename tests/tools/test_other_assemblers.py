"""Tests of docs/OTHER_ASSEMBLERS.md: each line of its table gets what the table says."""
import re

from calling import TOP, Calling
from lib.repository import read_text

ROW = re.compile(r'^\| `([^`]+)`[^|]*\|[^|]+\| `([^`]+)`( with a note)? \|$', re.M)


class OtherAssemblers(Calling):
    def test_each_line_gets_what_is_said_of_it(self):
        text = read_text(TOP / 'docs/OTHER_ASSEMBLERS.md')
        rows = ROW.findall(text)
        self.assertEqual(len(rows), sum(line.startswith('| `') for line in text.splitlines()))
        for line, cause, note in rows:
            with self.subTest(line):
                # a label or a comment begins in column 1
                has_label = re.match(r'(loop:|LONGNAME|!LOOP|;)', line)
                self.file('a.gpl', f'A      EQU  5\n{"" if has_label else "       "}{line}\n'.encode())
                said = self.call('assemble', 'a.gpl').stderr.decode().splitlines()
                self.assertEqual(said[0], f'a.gpl:2: {cause}')
                self.assertEqual(any(row.startswith('a.gpl:2: note: ') for row in said), bool(note))

    def test_the_macro_places_a_text_with_its_length(self):
        macro = re.search(r'(?s)```\n(STRI .*?)```', read_text(TOP / 'docs/OTHER_ASSEMBLERS.md'))[1]
        self.file('a.gpl', f"{macro}       STRI 'IT''S'\n".encode())
        self.assertEqual(self.call('assemble', 'a.gpl').stdout, b"\4IT'S")

    def test_what_is_accepted_means_what_is_said_of_it(self):
        self.file('a.gpl', b' ADD @>8300,R1\n DATA 1+2*3\n')
        self.assertEqual(self.call('assemble', 'a.gpl').stdout, bytes.fromhex('A2 00 01 00 09'))
