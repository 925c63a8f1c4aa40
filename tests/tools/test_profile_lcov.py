"""Tests of the tracefiles of LCOV, by a strict reader of their form and, if it is there, by lcov itself."""
import re
import shutil
import subprocess
import types
import unittest

from calling import TOP, Calling
from expanding.author import Source
from profiling.counts import Counts
from profiling.lcov import tracefile
from stepping.listing import Line, Listing, Name

SOURCE = b'''S      CALL ONE
       BR   AWAY
       CZ   @>8300
       BS   AWAY
       BR   AWAY
AWAY   EXIT
ONE    RTN
TWO    CALL ONE
       RTN
THREE  CALL TWO
       END  S
'''
TEXT = '''TN:
SF:{path}
FN:1,S
FN:7,ONE
FN:8,TWO
FNDA:1,S
FNDA:1,ONE
FNDA:0,TWO
FNF:3
FNH:2
BRDA:2,0,0,1
BRDA:2,0,1,0
BRDA:4,0,0,-
BRDA:4,0,1,-
BRF:4
BRH:1
DA:1,1
DA:2,1
DA:3,0
DA:4,0
DA:5,0
DA:6,1
DA:7,1
DA:8,0
DA:9,0
DA:10,0
LF:10
LH:4
end_of_record
'''


class Reader:
    """A tracefile that is read strictly: each record in the order of its parts, with sums that are right."""

    def __init__(self, text):
        self.files = {}
        assert text.endswith('end_of_record\n')
        head, *rows = text.splitlines()
        assert re.fullmatch('TN:[A-Za-z0-9_]*', head), head
        self.rows = rows
        while self.rows:
            self.record()

    def some(self, pattern):
        """The next rows of a form."""
        found = []
        while self.rows and (row := re.fullmatch(pattern, self.rows[0])):
            found.append(row.groups())
            del self.rows[0]
        return found

    def one(self, pattern):
        found = self.some(pattern)
        assert len(found) == 1, (pattern, self.rows[:1])
        return found[0][0]

    def sums(self, kind, *counts):
        for letter, count in zip('FH', counts):
            assert int(self.one(f'{kind}{letter}:([0-9]+)')) == count, (kind, letter, count)

    def record(self):
        path = self.one('SF:(/.+)')
        names = self.some(r'FN:([0-9]+),([A-Za-z0-9_.>]+)')
        begun = {name: int(times) for times, name in self.some(r'FNDA:([0-9]+),([A-Za-z0-9_.>]+)')}
        assert [name for _, name in names] == list(begun), names
        self.sums('FN', len(begun), sum(times > 0 for times in begun.values()))
        ways = self.some('BRDA:([0-9]+),([0-9]+),([01]),([0-9]+|-)')
        self.sums('BR', len(ways), sum(times not in '-0' for *_, times in ways))
        lines = {int(number): int(times) for number, times in self.some('DA:([0-9]+),([0-9]+)')}
        assert list(lines) == sorted(lines) and all(int(way[0]) in lines for way in ways)
        self.sums('L', len(lines), sum(times > 0 for times in lines.values()))
        self.one('(end_of_record)')
        assert path not in self.files
        self.files[path] = types.SimpleNamespace(begun=begun, ways=ways, lines=lines)


class Tracefiles(Calling):
    def tracefile(self, *words):
        ended = self.call('profile', '--lcov', 'a.info', *words)
        self.assertEqual((ended.returncode, ended.stderr), (0, b''))
        return (self.folder / 'a.info').read_text()

    def test_a_worked_example(self):
        path = self.file('a.gpl', SOURCE)
        text = self.tracefile('a.gpl')
        self.assertEqual(text, TEXT.format(path=path.resolve()))
        Reader(text)

    def test_lines_of_several_files_are_those_of_the_author(self):
        """A line of a macro counts where it is used, as often as the most of its lines."""
        self.file('a.gpl', b' COPY "B.GPL"\nS ST @>8300,3\n.loop TWICE\n DEC @>8300\n BR .loop\n EXIT\n END S\n')
        self.file('B.GPL', b'TWICE MACRO\n CZ @>8300\n BS .end\n INC @>8301\n.end INC @>8302\n ENDM\n'
                           b'NEVER RTN\n')
        found = Reader(self.tracefile('a.gpl')).files
        folder = self.folder.resolve()
        self.assertEqual({path: file.lines for path, file in found.items()},
                         {f'{folder}/a.gpl': {2: 1, 3: 3, 4: 3, 5: 3, 6: 1}, f'{folder}/B.GPL': {7: 0}})
        self.assertEqual(found[f'{folder}/a.gpl'].ways, [('3', '0', '0', '0'), ('3', '0', '1', '3'),
                                                         ('5', '0', '0', '2'), ('5', '0', '1', '1')])

    def test_a_whole_cartridge_is_read_by_lcov(self):
        text = self.tracefile('-D', 'BENCH', str(TOP / 'examples/lights/lights.gpl'), '700')
        found = Reader(text).files
        if not shutil.which('lcov'):
            self.skipTest('there is no lcov here')
        ended = subprocess.run(['lcov', '--rc', 'lcov_branch_coverage=1', '--summary', 'a.info'], cwd=self.folder,
                               capture_output=True, text=True, check=True)
        hit = sum(times > 0 for file in found.values() for times in file.lines.values())
        self.assertIn(f'({hit} of {sum(len(file.lines) for file in found.values())} lines)', ended.stdout)
        ways = sum(times not in '-0' for file in found.values() for *_, times in file.ways)
        self.assertIn(f'({ways} of {sum(len(file.ways) for file in found.values())} branches)', ended.stdout)

    def test_several_runs_are_counted_together(self):
        lines = [Line(1, 0x6000, b'\x06\x60\x06', b'S CALL SUB'), Line(2, 0x6003, b'\x40\x00', b' BR S'),
                 Line(3, 0x6005, b'\x0b', b' EXIT'), Line(4, 0x6006, b'\x00', b'SUB RTN')]
        counts = Counts(Listing(lines, [Name('S', 0x6000, 1), Name('SUB', 0x6006, 4)]))
        for addresses, last in (([0x6000, 0x6006, 0x6003], 0x6005), ([0x6006], 0x9000), ([], 0x6000)):
            counts.add([types.SimpleNamespace(address=address) for address in addresses], last)
        counts.ended(0x6005)
        file, = Reader(tracefile(Source('/a/b.gpl', b'S CALL SUB\n BR S\n EXIT\nSUB RTN\n', None), counts,
                                 'two').decode()).files.values()
        self.assertEqual((file.lines, file.begun), ({1: 1, 2: 1, 3: 1, 4: 2}, {'S': 1, 'SUB': 2}))
        self.assertEqual(file.ways, [('2', '0', '0', '0'), ('2', '0', '1', '1')])


if __name__ == '__main__':
    unittest.main()
