"""Tests of the listings of assembler sources: what the rows place is what the loader finds in the object text."""
import random
import unittest

from calling import Calling
from lib import program
from stepping import assembly, processor

BASE = 0xA000
LINES = ['LI R1,>1234', 'MOV @{name},R2', 'A *R1+,@>8300', 'CLR R3', 'BL @{name}', 'DATA {name},{name}+2,$,-1,5',
         'BYTE 1,2,3', "TEXT 'ABCDE'", 'DATA 1', 'BSS 3', 'EVEN', 'BYTE >FF', 'JMP $', 'SRL R1,4', 'BES 4', '',
         'DATA 1,2,3,4,5,6,7,8,9', "TEXT 'A TEXT OF MORE THAN EIGHT'", '* a comment', 'MOVB *R1,@4(R2)']


def source_of(chance, file=''):
    """The lines of a source that is accepted: every name is defined, and no line is refused."""
    count = chance.randrange(3, 40)
    names = [f'L{number}' for number in range(count) if chance.random() < 0.4] or ['L0']
    lines = []
    for number in range(count):
        text = chance.choice(LINES).format(name=chance.choice(names))
        if not text or text.startswith('*'):
            lines.append(text)
            text = f'DATA {number}'
        label = f'L{number}' if f'L{number}' in names else ''
        lines.append(f'{label:6} {text}')
    if file:
        lines.insert(chance.randrange(len(lines) + 1), f'       COPY "{file}"')
    return ''.join(line.rstrip() + '\n' for line in lines)


class Listed(Calling):
    def setUp(self):
        super().setUp()
        self.bench = program.program()
        self.debugger = program.Program(program.other(self.bench.path, 'ti_debug'))

    def listing(self, source):
        ended = self.debugger.run('list', given=source, folder=self.folder)
        self.assertEqual((ended.status, ended.err), (0, b''))
        return assembly.listing_of(ended.out)

    def linked(self, source):
        objects = self.bench.run('asm', given=source, folder=self.folder)
        self.assertEqual(objects.status, 0)
        return self.bench.run('link', given=objects.out).out.decode('latin-1')

    def test_the_rows_place_what_is_linked(self):
        self.file('PART.SRC', b'PART   DATA PART,1,2,3,4\n       BYTE 7\n       EVEN\n')
        for seed in range(60):
            file = 'PART.SRC' if seed % 2 else ''
            source = (' DEF L0\n' + source_of(random.Random(seed), file) + ' END >A000\n').encode()
            if b'\nL0 ' not in source:
                source = source.replace(b' DEF L0\n', b'')
            linked, listing = self.linked(source), self.listing(source)
            memory = processor.bytes_in(linked)
            self.assertTrue(assembly.is_at(listing.lines, BASE, memory), source)
            placed = {line.address(BASE) + at for line in listing.lines for at in range(len(line.bytes_at(BASE)))}
            self.assertLessEqual({at for at in memory if memory[at]}, placed)
            values = {name.name: name.value.at(BASE) for name in listing.names}
            for name, value in processor.names_in(linked):
                self.assertEqual(value, int.from_bytes(values[name], 'big'))

    def test_lines_are_those_of_the_source_and_its_files(self):
        part = b'PART   DATA 1\n* in a file\n'
        self.file('PART.SRC', part)
        source = b'* first\n       COPY "PART.SRC"\nLAST   EQU  5\n       END\n* not read\n'
        listing = self.listing(source)
        self.assertEqual([(line.file, line.number, line.text) for line in listing.lines], [
            (None, 1, b'* first'), ('PART.SRC', 1, b'PART   DATA 1'), ('PART.SRC', 2, b'* in a file'),
            (None, 3, b'LAST   EQU  5'), (None, 4, b'       END')])
        self.assertEqual([(name.name, name.file, name.number) for name in listing.names],
                         [('PART', 'PART.SRC', 1), ('LAST', None, 3)])

    def test_a_refused_source_is_listed_up_to_its_refused_line(self):
        for source, rows in ((b' DATA 1\n DATA NONE\n DATA 2\n', [(1, [1])]), (b' DATA 1\n BAD\n', [(1, [])]),
                             (b' DATA 1\n COPY "NONE"\n', [(1, [])]), (b' BAD\n', [])):
            ended = self.debugger.run('list', given=source, folder=self.folder)
            refused = self.bench.run('asm', given=source, folder=self.folder)
            self.assertEqual((ended.status, ended.err), (1, refused.err))
            lines = assembly.listing_of(ended.out).lines
            self.assertEqual([(line.number, [value.number for value in line.values]) for line in lines], rows)


if __name__ == '__main__':
    unittest.main()
