"""Tests of examples/lights/console.gpl: its macros place what the table of the operations that are left out says."""
import os
import unittest

from calling import TOP
from expanding.expand import expanded
from lib import other_operations
from lib.program import Program

MAIN = TOP / 'examples/lights/main'
# a line of each operation, and the names of its pieces
LINES = [
    ('SCAN', ['SCAN']), ('PARSE 5', ['PARSE']), ('XML >12', ['XML']), ('CONT', ['CONT']), ('EXEC', ['EXEC']),
    ('RTNB', ['RTNB']), ('RTGR', ['RTGR']), ('COINC', ['COINC']), ('IO >8310,3', ['IO']),
]
# a FMT with each of its own operations
FMT = """FMT
HTEX 'AB,'
VTEX '12345678901234567890123456789012'
HCHA 32,'-'
VCHA 1,'-'
ADDCOL 32
ADDROW 1
RPTB 32
HSTR 27,>837F
ENDRPT $
BIAS >60
ROW 23
COL 0
FEND"""
PARTS = ['FMT', 'HTEX', 'VTEX', 'HCHA', 'VCHA', 'COL+', 'ROW+', 'RPTB', 'HSTR', 'FEND', 'BIAS', 'ROW', 'COL', 'FEND']


def placed(lines):
    """The bytes that lines with the macros place."""
    source = ' COPY "console.gpl"\n' + ''.join(f' {line}\n' for line in lines)
    return Program(os.environ['TI_BENCH']).run('gasm', given=expanded(str(MAIN), source.encode()).text).out


class Console(unittest.TestCase):
    def test_the_bytes_of_each_are_those_of_the_table(self):
        for lines, names in [*(([line], names) for line, names in LINES), (FMT.split('\n'), PARTS)]:
            with self.subTest(names):
                data = placed(lines)
                self.assertEqual([name for name, _, _ in other_operations.pieces(data)], names)
                self.assertEqual(other_operations.length(data), len(data))

    def test_each_operation_of_the_table_has_a_macro(self):
        named = {names[0] for _, names in LINES} | {'FMT'}
        self.assertEqual(named, other_operations.NAMES - {'SWGR'})

    def test_counts_and_texts_are_in_the_code_bytes(self):
        self.assertEqual(placed(FMT.split('\n')), bytes.fromhex(
            '08 02') + b'AB,' + b'\x3F' + b'12345678901234567890123456789012' + bytes.fromhex(
            '5F 2D 60 2D 9F A0 DF FA 7F FB 60 30 FC 60 FE 17 FF 00 FB'))
