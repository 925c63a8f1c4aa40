"""Tests of tools/raw."""
import subprocess
import unittest

from calling import TOOLS, Calling

LISTING = b'entry >A000\nTABLE >A012\n>A000 C060 A00E\n>A008 10FF\n'


class Raw(Calling):
    def raw(self, *words, given=LISTING):
        ended = self.call('raw', *words, given=given)
        return ended.returncode, ended.stdout.hex(' ', 2).upper(), ended.stderr.decode()

    def test_words_stand_at_their_addresses_with_zeros_between(self):
        self.assertEqual(self.raw(), (0, 'C060 A00E 0000 0000 10FF', ''))

    def test_a_range_is_filled_and_what_is_outside_is_counted(self):
        self.assertEqual(self.raw('--range', 'A002-A009', '--fill', 'ff'),
                         (0, 'A00E FFFF FFFF 10FF', 'tools/raw: 2 bytes are outside of >A002-A009\n'))

    def test_one_byte_is_counted_as_one(self):
        self.assertEqual(self.raw('--range', 'A000-A008'),
                         (0, 'C0 60A0 0E00 0000 0010', 'tools/raw: 1 byte is outside of >A000-A008\n'))

    def test_names_are_no_words(self):
        self.assertEqual(self.raw(given=b'entry >A000\nTABLE >A012\n'), (1, '', 'tools/raw: no words are listed\n'))

    def test_an_output_file_is_replaced_only_by_words(self):
        old = self.file('out', b'old')
        self.assertEqual(self.raw('-o', 'out', given=b'entry >A000\n')[0], 1)
        self.assertEqual(old.read_bytes(), b'old')
        self.assertEqual(self.raw('-o', 'out', '--range', 'A000-A003'),
                         (0, '', 'tools/raw: 2 bytes are outside of >A000-A003\n'))
        self.assertEqual(old.read_bytes().hex(' ', 2).upper(), 'C060 A00E')

    def test_a_stream_that_fails_is_named(self):
        for words, name in (('<&-', 'standard input: Bad file descriptor'),
                            ('>/dev/full', 'standard output: No space left on device'),
                            ('>&-', 'standard output: Bad file descriptor')):
            ended = subprocess.run(['bash', '-c', f'"$0" {words}', TOOLS / 'raw'], input=LISTING, capture_output=True)
            self.assertEqual((ended.returncode, ended.stderr.decode()), (3, f'tools/raw: {name}\n'))

    def test_wrong_words_have_status_2(self):
        for words in (['--range', 'A00-B00'], ['--range', 'A002-A000'], ['--fill', '100']):
            self.assertEqual(self.raw(*words)[0], 2)


if __name__ == '__main__':
    unittest.main()
