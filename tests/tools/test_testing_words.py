"""Tests of the words of tools/test: values, places, and checks."""
import unittest

from stepping.places import END, REGISTERS, VIDEO
from testing import checks, places, values, words
from testing.only import changed_beside
from testing.places import State
from testing.values import BadWord

NAMES = {'A': 0x8300, 'LIST': 0x8330, 'LABEL': 0x6010, 'PLAY.WON': 0x6020, 'FIVE': 5, 'STEPS': 0x8302}


def memory_of(**parts):
    """A memory with bytes at places, as a state."""
    memory = bytearray(END)
    for word, data in parts.items():
        at = int(word[1:], 16) + (VIDEO if word[0] == 'V' else 0)
        memory[at:at + len(data)] = data
    return State(memory, 7, {0x6010: 2})


class Values(unittest.TestCase):
    def test_numbers(self):
        for text, wanted in (('5', 5), ('-1', -1), ('>1F', 31), ('FIVE', 5), ('five+1', 6), ('LABEL->10', 0x6000),
                             ('play.won', 0x6020), ('1+2-4', -1), ('>FFFFFFFF', 0xFFFFFFFF)):
            self.assertEqual(values.number(text, NAMES), wanted, text)
        for text, cause in (('', 'nothing is no value'), ('5 ', '5  is no value'),
                ('NONE', 'the source has no name NONE'),
                            ('5A', '5A is no value'), ('1+', '1+ is no value'), ('--1', '--1 is no value')):
            with self.assertRaises(BadWord) as raised:
                values.number(text, NAMES)
            self.assertEqual(str(raised.exception), cause)

    def test_lists(self):
        for text, size, wanted in (
                ('1,2', 1, b'\1\2'), ('1,2', 2, b'\0\1\0\2'), ("'AB'", 1, b'AB'), ("'AB'", 2, b'AB'),
                ("'it''s, *'", 1, b"it's, *"), ("1,'A'*3,-1", 1, b'\1AAA\xff'), ('FIVE*2', 1, b'\5\5'),
                ('-128', 1, b'\x80'), ('255', 1, b'\xff'), ('-32768,65535', 2, b'\x80\0\xff\xff'), ("''", 1, b''),
                ('1*0', 1, b''), ('>12345678', 4, b'\x12\x34\x56\x78'), ("' '*16384", 1, b' ' * 16384)):
            self.assertEqual(values.data_of(text, size, NAMES), wanted, text)
        for text, size, cause in (
                ('256', 1, '256 is 256, which does not fit 1 byte'),
                ('-129', 1, '-129 is -129, which does not fit 1 byte'),
                ('65536', 2, '65536 is 65536, which does not fit 2 bytes'), ('1,', 1, '1, is no value'),
                ('', 1, 'nothing is no value'), ("'A", 1, "'A is no value"), ('1,,2', 1, '1,,2 is no value'),
                ("' '*16385", 1, 'a value of more than 16,384 bytes'), ("1'A'", 1, "1'A' is no value")):
            with self.assertRaises(BadWord) as raised:
                values.data_of(text, size, NAMES)
            self.assertEqual(str(raised.exception), cause)

    def test_bytes_are_shown_as_they_are_written(self):
        for data, size, written, wanted in (
                (b'\5', 1, '7', '5'), (b'\5', 1, '>07', '>05'), (b'\0\5', 2, '7', '5'), (b'\0\5', 2, 'LABEL', '>0005'),
                (b'\1\1\2', 1, '1,2,3', '1*2,2'), (b'\1\2\3', 2, '7', '>01,>02,>03'),
                (b'HI\0\0!', 1, "'X'", "'HI',>00*2,'!'"),
                (b"it's", 1, "'X'", "'it''s'"), (b'', 1, "'X'", "''"), (b'\x7f', 1, "'X'", '>7F')):
            self.assertEqual(values.shown(data, size, written), wanted)

    def test_words_of_lines(self):
        for said, wanted in (("A = 5", ['A=5']), ("A= 5 B =6", ['A=5', 'B=6']),
                ("A='x = y' steps <= 4", ["A='x = y'", 'steps<=4']),
                             ('LIST = 1, 2 ,3', ['LIST=1,2,3']), ('only A B', ['only', 'A', 'B']),
                             ("A=' ,' B", ["A=' ,'", 'B']), ('>8302 != >FF', ['>8302!=>FF'])):
            self.assertEqual(words.joined(words.words_of(said)), wanted)
        for word, wanted in (('>8302>=5', ('>8302', '>=', '5')), ('A=5', ('A', '=', '5')),
                ("A!='='", ('A', '!=', "'='")),
                             ('A<=>FF', ('A', '<=', '>FF')), ('returns', None), ("'A=5'", None)):
            self.assertEqual(words.parted(word), wanted)
        self.assertEqual([words.cell_of(it) for it in ('5', '<=5', '!=5', '>=5', '>05')],
                         [('=', '5'), ('<=', '5'), ('!=', '5'), ('>=', '5'), ('=', '>05')])


class Places(unittest.TestCase):
    def test_places(self):
        for word, at, size, room in (
                ('A', 0x8300, 1, 0xC2), ('@A', 0x8300, 1, 0xC2), ('A+2:2', 0x8302, 2, 0xC0), ('>83C1', 0x83C1, 1, 1),
                ('@STEPS', 0x8302, 1, 0xC0), ('V@>3FFF', VIDEO + 0x3FFF, 1, 1), ('v@FIVE', VIDEO + 5, 1, 0x3FFB),
                ('R@7', REGISTERS + 7, 1, 1), ('R@0:8', REGISTERS, 8, 8), ('V@0:16384', VIDEO, 16384, 16384)):
            place = places.place_of(word, NAMES)
            self.assertEqual((place.begin(bytearray(END)), place.size, place.room), (at, size, room), word)

    def test_rows_are_where_register_2_says(self):
        memory = bytearray(END)
        memory[REGISTERS + 2] = 0x13
        self.assertEqual(places.place_of('row@2+3', NAMES).begin(memory), VIDEO + 3 * 1024 + 67)
        self.assertEqual((places.place_of('row@2+3', NAMES).room, places.place_of('row@23', NAMES).room), (29, 32))

    def test_what_is_no_place(self):
        cells = 'no cell that a program sees, from >8300 to >83C1'
        for word, cause in (
                ('', 'nothing is no place'), ('5A', '5A is no place'), ('>82FF', f'>82FF is {cells}'),
                ('LABEL', f'LABEL is {cells}'),
                ('>83C2', f'>83C2 is {cells}'), ('V@>4000', 'V@>4000 is not in the video memory, from >0000 to >3FFF'),
                ('R@8', 'R@8 is no register of the video processor, from 0 to 7'),
                ('A:0', 'A:0: there are 1 to 194 bytes from there on'),
                ('>83C1:2', '>83C1:2: there are 1 to 1 bytes from there on'),
                ('row@24', 'row@24: the screen has the rows 0 to 23 and the columns 0 to 31'),
                ('row@0+32', 'row@0+32: the screen has the rows 0 to 23 and the columns 0 to 31'),
                ('bit@EQ', 'bit@EQ: the bits of the status are H, GT, COND, CARRY, OVF'),
                ('visits@NONE', 'the source has no name NONE'),
                ('NONE', 'the source has no name NONE'), ('V@-1', 'V@-1 is no place')):
            with self.assertRaises(BadWord) as raised:
                places.place_of(word, NAMES)
            self.assertEqual(str(raised.exception), cause)


class Checks(unittest.TestCase):
    def said(self, word, relation, text, state):
        fault = checks.check_of(places.place_of(word, NAMES), relation, text, NAMES).fault(state)
        return fault and fault.text

    def test_checks(self):
        state = memory_of(x8300=b'\5', x8302=b'\1\2', x837C=b'\x20', V0000=b'HELLO' + b' ' * 27)
        for word, relation, text, wanted in (
                ('A', '=', '5', None), ('A', '=', '6', 'A is 5, expected 6'),
                ('A', '!=', '5', 'A is 5, expected another value'),
                ('A', '!=', '6', None), ('A', '<=', '5', None), ('A', '<=', '4', 'A is 5, expected <=4'),
                ('A', '>=', '5', None),
                ('A', '>=', '>06', 'A is >05, expected >=>06'), ('A', '=', '5..6', None), ('A', '=', '4..5', None),
                ('A', '=', '6..9', 'A is 5, expected 6..9'), ('A', '!=', '6..9', None),
                ('A', '!=', '1..5', 'A is 5, expected not 1..5'),
                ('@STEPS:2', '=', '>0102', None), ('@STEPS:2', '<=', '>0101', '@STEPS:2 is >0102, expected <=>0101'),
                ('steps', '=', '7', None), ('steps', '<=', '6', 'steps is 7, expected <=6'),
                ('visits@LABEL', '=', '2', None),
                ('visits@PLAY.won', '=', '1', 'visits@PLAY.won is 0, expected 1'), ('bit@COND', '=', '1', None),
                ('bit@H', '=', '1', 'bit@H is 0, expected 1'), ('bit@COND', '!=', '1', 'bit@COND is 1, expected not 1'),
                ('row@0', '=', "'HELLO'", None), ('row@0', '=', "'HALLO'", "row@0 is 'HELLO', expected 'HALLO'"),
                ('row@0', '=', "''", "row@0 is 'HELLO', expected ''"), ('row@0+1', '=', "'ELL'", None),
                ('V@0', '=', "'HELLO'", None),
                ('V@0', '=', "' '*65", 'V@0: byte 0 is \'H\', expected \' \'; 38 of 65 bytes differ')):
            self.assertEqual(self.said(word, relation, text, state), wanted, (word, relation, text))

    def test_checks_at_their_borders(self):
        state = memory_of(x8300=b'\5', V0000=b'HELLO' + b' ' * 27)
        for word, relation, text, wanted in (
                ('A', '=', '0..5', None), ('A', '=', '5..5', None), ('A+1', '=', '0..0', None),
                ('A+1', '<=', '5', None),
                ('A+1', '>=', '5', 'A+1 is 0, expected >=5'), ('A+1', '>=', '1', 'A+1 is 0, expected >=1'),
                ('A+1', '>=', '0', None), ('A', '<=', '255', None), ('A:4', '=', '0..>FFFFFFFF', None),
                ('A:4', '=', '5', 'A:4 is 83886080, expected 5'), ('steps', '=', '>08', 'steps is >07, expected >08'),
                ('visits@LABEL', '=', '>01', 'visits@LABEL is >02, expected >01'),
                ('bit@H', '=', '>01', 'bit@H is >00, expected >01'),
                ('row@0+0', '=', '>48,>00', 'row@0+0 is >48,>45, expected >48,>00'),
                ('V@0', '=', "'A'*64", "V@0 is 'HELLO                           ',>00*32, expected "
                 f"'{'A' * 64}'"),
                ('V@0', '!=', "'HELLO'", "V@0 is 'HELLO', expected another value")):
            self.assertEqual(self.said(word, relation, text, state), wanted, (word, relation, text))
        for relation, text in (('<=', '256'), ('=', '0..256'), ('>=', '>100')):
            with self.assertRaises(BadWord):
                self.said('A', relation, text, state)

    def test_what_only_leaves_out(self):
        class Names:
            @staticmethod
            def name_of(at):
                return f'{at:X}'
        before = bytearray(END)
        before[0x8372:0x8374] = b'\x9f\x7e'
        # the first cells above the tops of both stacks, the status, and an area
        for areas, changed, said in (
                (['A:2', 'row@1+30'],
                 [0x8300, 0x8301, 0x8380, 0x839F, 0x83A0, 0x83BF, 0x837C, VIDEO + 62, VIDEO + 63], None),
                ([], [], None), ([], [0x8300], '8300 was >00 and is >07'),
                ([], [0x8300, 0x8301], '8300 was >00 and is >07; and another byte'),
                ([], [0x8300, 0x8301, 0x8302], '8300 was >00 and is >07; and 2 more bytes'),
                (['A:2'], [0x8302], '8302 was >00 and is >07'), (['A+1:2'], [0x8300], '8300 was >00 and is >07'),
                (['row@1+30'], [VIDEO + 61], '1003D was >00 and is >07'),
                (['row@1'], [VIDEO + 64], '10040 was >00 and is >07'),
                ([], [0x837F], '837F was >00 and is >07'), ([], [0x83C0], '83C0 was >00 and is >07')):
            after = bytearray(before)
            for at in changed:
                after[at] = 7
            fault = changed_beside(Names, [places.area_of(word, NAMES) for word in areas], before, after)
            self.assertEqual(fault and fault.text, said and f'changed, but not named after only: {said}')
            self.assertEqual(fault and fault.at, said and tuple(it for it in changed if f'{it:X}' == said.split()[0]))

    def test_what_is_on_the_stacks_may_not_change(self):
        class Names:
            name_of = hex
        before = bytearray(END)
        before[0x8372:0x8374] = b'\xa0\x80'
        for at, is_free in ((0x8380, False), (0x8381, False), (0x8382, True), (0x83A0, False), (0x83A1, True)):
            after = bytearray(before)
            after[at] = 7
            self.assertEqual(changed_beside(Names, [], before, after) is None, is_free, hex(at))
        before[0x8372:0x8374] = b'\xbe\x9c'
        for at, is_free in ((0x83BF, True), (0x83BE, False), (0x839E, True), (0x839F, True), (0x839D, False)):
            after = bytearray(before)
            after[at] = 7
            self.assertEqual(changed_beside(Names, [], before, after) is None, is_free, hex(at))
        # pointers of stacks elsewhere leave nothing free
        before[0x8372:0x8374] = b'\xbf\x9e'
        for at in (0x83C0, 0x83A0):
            after = bytearray(before)
            after[at] = 7
            self.assertIsNotNone(changed_beside(Names, [], before, after))

    def test_which_bytes_are_at_fault(self):
        state = memory_of(V0000=b'HELLO', x8302=b'\1\2')
        for word, relation, text, at in (('V@0', '=', "'HALLA'", (VIDEO + 1, VIDEO + 4)),
                ('@STEPS:2', '>=', '>7FFF', (0x8302, 0x8303)),
                                         ('A', '!=', '0', (0x8300,)), ('bit@GT', '=', '1', (0x837C,)),
                                         ('steps', '=', '8', ())):
            fault = checks.check_of(places.place_of(word, NAMES), relation, text, NAMES).fault(state)
            self.assertEqual(fault.at, at)
        self.assertEqual(checks.check_of(places.place_of('bit@GT', NAMES), '=', '1', NAMES).fault(state).bits, 0x40)


if __name__ == '__main__':
    unittest.main()
