"""Tests of tools/label over a program that does not make the same bytes of some lines: they are left as they are listed,
and if that does not help, so is all."""
import unittest

from labelling.label import FLAT, Wishes, labelled
from lib import program
from lib.program import Run
from test_label import HELLO, LABELLED


class Odd:
    """The program, but for a byte of the image, which is another one if a source has a text."""

    def __init__(self, text, place):
        self.real, self.text, self.place = program.program(), text, place
        self.path = self.real.path

    def run(self, *words, given=b'', **more):
        ended = self.real.run(*words, given=given, **more)
        if words[0] != 'gasm' or self.text not in given or ended.status:
            return ended
        data = bytearray(ended.out)
        data[self.place] ^= 1
        return Run(0, bytes(data), ended.err)


class Lowered(unittest.TestCase):
    def setUp(self):
        self.image = program.program().run('gasm', given=HELLO).out
        self.wishes = Wishes(names=[('names', '>6016 WORD\n')])

    def made(self, text, place, wishes=None):
        return labelled(Odd(text, place), 'gdis', 0x6000, self.image, wishes or Wishes())

    def test_only_the_line_of_which_no_same_bytes_come_is_left_as_it_is_listed(self):
        for text, listed, place in ((b'BR   L6020', 'BR   >6020', 0x2B), (b'DATA P601B', 'BYTE >60,>1B', 0x0F)):
            made = self.made(text, place)
            found, lines = ([line.split() for line in it.splitlines()] for it in (made.text.decode(), LABELLED))
            self.assertEqual([(new, old) for new, old in zip(found, lines) if new != old],
                             [(line.replace(text.decode(), listed).split(), line.split())
                              for line in LABELLED.splitlines() if text.decode() in line])
            self.assertIn('; 1 times a line was left as it is listed or as bytes; ', made.summary)

    def test_if_no_labels_pass_the_listing_is_left_and_the_names_that_are_left_out_are_said(self):
        made = self.made(b'labelled by', 0, self.wishes)
        self.assertEqual((made.summary, made.doubts), (FLAT, ['names: the names are left out']))
        self.assertNotIn(b'WORD', made.text)
        self.assertEqual(program.program().run('gasm', given=made.text).out, self.image)
        self.assertEqual(self.made(b'no line has this', 0, self.wishes).doubts, [])


if __name__ == '__main__':
    unittest.main()
