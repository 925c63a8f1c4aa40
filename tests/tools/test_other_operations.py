"""Tests of the table of operations that are left out."""
import unittest

from lib import program
from lib.other_operations import FMT_PARTS, NAMES, OF_CODE, OPERATIONS, addresses, length, parts, pieces

# the codes of the profile, by docs/GPL.md
PROFILE = {0x00, 0x01, 0x02, *range(0x04, 0x08), *range(0x09, 0x0E), 0x30, 0x31, 0x32, 0x33, 0x34, 0x35, 0x38, 0x39,
           *range(0x40, 0x88), 0x88, 0x8A, 0x8B, 0x8C, 0x8E, 0x8F, *range(0x90, 0x98), *range(0xA0, 0xC2),
           *range(0xC4, 0xEC)}
# FMT with each of its parts, two repeats, one in the other, and what follows it
PARTS = [('HTEX', '01 4142'), ('VTEX', '20 43'), ('HCHA', '5F 44'), ('VCHA', '60 45'), ('COL+', '9F'), ('ROW+', 'A0'),
         ('RPTB', 'C1'), ('HSTR', 'E2 10'), ('RPTB', 'C2'), ('HSTR', 'FA F300 04'), ('FEND', 'FB 6010'),
         ('FEND', 'FB 6008'), ('BIAS', 'FC 60'), ('BIAS', 'FD 8F 0010'), ('ROW', 'FE 01'), ('COL', 'FF 02'),
         ('FEND', 'FB')]


class OtherOperations(unittest.TestCase):
    def test_lengths(self):
        for data, count in (('03', 1), ('0E55', 2), ('0F10', 2), ('10', 1), ('13', 1), ('3B 0008 00 6000 02', 7),
                            ('3A 10 00 6000 02', 6), ('3D 0008 00 A0 00', 6), ('3C 10 07 10', 4),
                            ('21 0008 6000 7000', 7), ('F4 10 11', 3), ('F6 10 55', 3), ('FB 10 5566', 4),
                            ('F8 E012 03 EF1234 05', 8)):
            data = bytes.fromhex(data)
            with self.subTest(data.hex()):
                self.assertEqual((length(data), length(data + b'\xFB\x01'), length(data[:-1] or b'\0')),
                                 (count, count, None))

    def test_what_is_no_operation_has_no_length(self):
        self.assertEqual({length(bytes([code, *bytes(20)])) for code in PROFILE}, {None})

    def test_fmt_goes_up_to_its_own_end(self):
        data = bytes.fromhex('08' + ''.join(text for _, text in PARTS))
        self.assertEqual(length(data + b'\xFB\xFB'), len(data))
        self.assertEqual([(row.name, data[at:end]) for row, at, end in parts(data)],
                         [(name, bytes.fromhex(text)) for name, text in PARTS])
        self.assertEqual([it[0] for it in pieces(data)], ['FMT', *(name for name, _ in PARTS)])
        self.assertEqual({length(data[:i]) for i in range(1, len(data))}, {None})
        self.assertEqual(length(bytes.fromhex('08 1F') + bytes(32) + b'\xFB'), 35)

    def test_the_addresses_of_grom_are_found(self):
        for data, found in (('03', []), ('3B 6000 00 6000 02', ['6000']), ('3D 6000 00 A0 00', []),
                            ('2D 0008 6000 7000', ['6000']), ('21 0008 6000 7000', ['6000', '7000']),
                            ('08' + ''.join(text for _, text in PARTS), ['6010', '6008'])):
            data = bytes.fromhex(data)
            self.assertEqual([data[at:at + 2].hex() for at in addresses(data)], found)

    def test_each_part_of_fmt_has_codes_of_its_own(self):
        codes = [code for row in FMT_PARTS for code in range(row.first, row.last + 1)]
        self.assertEqual(codes, list(range(256)))

    def test_the_program_has_none_of_these_codes_and_names(self):
        found = program.program()
        codes = [code for row in OPERATIONS for code in range(row.first, row.last + 1)]
        self.assertEqual((len(codes), PROFILE & set(codes)), (len(set(codes)), set()))
        listed = found.run('gdis', '6000', given=b''.join(bytes([code]) + bytes(13) for code in codes)).out.decode()
        for code in codes:
            self.assertIn(f'       BYTE >{code:02X}\n', listed)
        for name in sorted(NAMES):
            self.assertEqual(found.run('gasm', given=f' {name}\n'.encode()).fault, 'line 1: unknown operation')

    def test_what_is_not_certain(self):
        unsure = {row.name for row in OPERATIONS if not row.is_certain}
        self.assertEqual(unsure, {'CONT', 'EXEC', 'RTNB', 'RTGR', 'MOVE', 'COINC', 'IO', 'SWGR'})
        moves = {code for code, row in OF_CODE.items() if row.name == 'MOVE' and row.is_certain}
        self.assertEqual(moves, {0x3A, 0x3B, 0x3C, 0x3D})


if __name__ == '__main__':
    unittest.main()
