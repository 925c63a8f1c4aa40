"""Tests of tools/label with operations of GPL that the profile leaves out."""
import unittest

from test_label import Labelling

# A cartridge that waits for a key, with each operation of which it is certain what follows.
KEYS = b"""\
       BYTE >AA,1,1,0
       DATA 0,MENU,0,0
MENU   DATA 0,START
       BYTE 4
       TEXT 'KEYS'
START  ALL  >20
       CLR  @>8374
WAIT   BYTE >03                   * SCAN
       BR   WAIT
       BYTE >08                   * FMT: row 3, twice HELLO and a star, an operand
       BYTE >FE,>03,>C1,>04
       TEXT 'HELLO'
AGAIN  BYTE >40,>2A,>FB
       DATA LOOP
       BYTE >E4,>10,>FB
       CEQ  @>8375,13
       BS   DONE
       BYTE >0F,>10               * XML
       BYTE >0E,>B3               * PARSE
       BYTE >3B                   * MOVE from GROM by an index to registers
       DATA 8
       BYTE 0
       DATA REGS
       BYTE >02
       DEC  @>8375
       BR   WAIT
DONE   EXIT
REGS   BYTE 0,224,0,14,1,6,0,7
LOOP   EQU  AGAIN-6
       END  START
"""
LISTED = """\
P6015  ALL  >20                         * >6015
       CLR  @>8374                      * >6017
L6019  BYTE >03                         * >6019 SCAN
       BR   L6019                       * >601A
       BYTE >08                         * >601C FMT
       BYTE >FE,>03                     * >601D ROW
       BYTE >C1                         * >601F RPTB
D6020  BYTE >04                         * >6020 HTEX
       TEXT 'HELLO'                     * >6021
       BYTE >40,>2A                     * >6026 HCHA
       BYTE >FB                         * >6028 FEND
       DATA D6020                       * >6029
       BYTE >E4,>10                     * >602B HSTR
       BYTE >FB                         * >602D FEND
       CEQ  @>8375,>0D                  * >602E
       BS   L6042                       * >6031
       BYTE >0F,>10                     * >6033 XML >10
       BYTE >0E,>B3                     * >6035 PARSE
       BYTE >3B,>00,>08,>00             * >6037 MOVE
       DATA D6043                       * >603B
       BYTE >02                         * >603D
       DEC  @>8375                      * >603E
       BR   L6019                       * >6040
L6042  EXIT                             * >6042
D6043  BYTE >00,>E0,>00,>0E,>01,>06,>00,>07 * >6043"""
# what is not certain: each with its bytes
UNSURE = [('CONT', '10'), ('EXEC', '11'), ('RTNB', '12'), ('RTGR', '13'), ('MOVE', '21000860007000'), ('COINC', 'ED00'),
          ('IO', 'F4000161'), ('SWGR', 'F8000102'), ('FMT', '0800')]


class Others(Labelling):
    def test_what_follows_them_is_followed(self):
        image = self.image(KEYS)
        lines, said = self.label('gdis', '6000', given=image)
        self.assertIn(LISTED, '\n'.join(lines))
        self.assertEqual((len(image), said), (75, [
            '75 bytes, 16 of them code; 6 labels; 7 addresses by labels; 30 bytes of operations that are left out '
            '(FMT, MOVE, PARSE, SCAN, XML); the same bytes']))

    def test_their_addresses_move_with_an_edit(self):
        lines, _ = self.label('gdis', '6000', given=self.image(KEYS))
        at = next(i for i, line in enumerate(lines) if line.startswith('P6015'))
        edited = self.image('\n'.join([*lines[:at], '       BACK 7', *lines[at:], '']).encode())
        wanted = self.image(KEYS.replace(b'START  ALL', b'START  BACK 7\n       ALL'))
        self.assertEqual(edited[0x15:], wanted[0x15:])

    def test_what_is_not_certain_is_a_warning_that_names_the_place(self):
        for name, text in UNSURE:
            with self.subTest(name):
                lines, said = self.label('gdis', '6000', given=b'\x07\x20' + bytes.fromhex(text) + b'\x90\x00\x0B')
                self.assertIn(f'>6002: code leads here, but {name} is left out, and it is not certain what follows; '
                              '--entry ADDR says where it goes on', said)
                self.assertIn('2 of them code', said[-1])
                self.assertEqual([line for line in lines if 'INC' in line], [])

    def test_an_entry_after_it_goes_on(self):
        data = b'\x07\x20\xED\x00\x90\x00\x0B'
        _, said = self.label('--entry', '6000', '--entry', '6004', 'gdis', '6000', given=data)
        self.assertIn('5 of them code', said[-1])

    def test_data_are_no_operation(self):
        _, said = self.label('--entry', '6000', '--data', '6002-6003', 'gdis', '6000', given=b'\x07\x20\x03\x0B')
        self.assertEqual(said, ['4 bytes, 2 of them code; 1 labels; 0 addresses by labels; the same bytes'])

    def test_bytes_that_are_no_instruction_are_said(self):
        _, said = self.label('gdis', '6000', given=b'\x07\x20\x1F\x0B')
        self.assertEqual(said[0], '>6002: code leads here, but it is no instruction; --data FROM-TO says so, or '
                         '--takes what the call before it takes')

    def test_a_subroutine_with_them_is_followed_up_to_one_that_is_not_certain(self):
        source = b'L CALL S\n BYTE 1\n EXIT\nS BYTE >03\n FETCH @>8300\n BYTE >3D,0,1,0,2\n BYTE >0F,>10\n RTN\n'
        lines, said = self.label('gdis', '6000', given=self.image(source))
        self.assertEqual(len(said), 1)
        self.assertIn('       BYTE >01                         * >6003 after a call', lines)
        _, said = self.label('gdis', '6000', given=self.image(source.replace(b'>0F,>10', b'>ED,>10')))
        self.assertEqual(said[0], '>6000: it is not known how many bytes >6005 takes after this call: it comes to '
                         'COINC at >600D, which is left out; --takes 6005=N would say it')


if __name__ == '__main__':
    unittest.main()
