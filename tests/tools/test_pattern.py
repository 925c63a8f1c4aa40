"""Tests of tools/pattern: patterns and colours, loaded by a program, show the picture again."""
import os
import random
import struct
import zlib

from calling import Calling
from lib.dump import dump
from lib.picture import COLOURS, SIGNATURE, chunk, points
from lib.program import Program

WIDTH, HEIGHT = 64, 32


def filtered(row, before, kind, step):
    """A line of bytes with a filter (PNG specification, third edition, "Filtering")."""
    made = bytearray([kind])
    for at, byte in enumerate(row):
        left, corner = (row[at - step], before[at - step]) if at >= step else (0, 0)
        above = before[at]
        guess = left + above - corner
        near = sorted((abs(guess - it), order, it) for order, it in enumerate((left, above, corner)))[0][2]
        made.append((byte - (0, left, above, (left + above) // 2, near)[kind]) & 0xFF)
    return bytes(made)


def png(kind, depth, rows, step, more=b'', width=WIDTH):
    """A PNG file of lines of bytes, each with another filter."""
    before, data = bytes(len(rows[0])), b''
    for number, row in enumerate(rows):
        data += filtered(row, before, number % 5, step)
        before = row
    head = struct.pack('>IIBBBBB', width, len(rows), depth, kind, 0, 0, 0)
    return SIGNATURE + chunk(b'IHDR', head) + more + chunk(b'IDAT', zlib.compress(data)) + chunk(b'IEND', b'')


def numbers(chosen):
    """A picture whose groups have two colours each: the number of the colour of each point."""
    made = []
    for _ in range(HEIGHT // 8):
        pair = chosen.sample(range(1, 16), 2)
        made += [[chosen.choice(pair) for _ in range(WIDTH)] for _ in range(8)]
    return made


def pictures(lines):
    """A picture as PNG files of several kinds."""
    palette = chunk(b'PLTE', bytes(part for it in COLOURS for part in it))
    yield png(3, 8, [bytes(line) for line in lines], 1, palette)
    yield png(3, 4, [bytes(a << 4 | b for a, b in zip(line[::2], line[1::2])) for line in lines], 1, palette)
    yield png(2, 8, [bytes(part for it in line for part in COLOURS[it]) for line in lines], 3)
    yield png(6, 8, [bytes(part for it in line for part in (*COLOURS[it], 200)) for line in lines], 4)


PROGRAM = """START  MOVE 8,R@0,G@REGS
       ALL  >FF
       MOVE 256,V@>0800,G@SHAPES
       MOVE 4,V@>0380,G@HUES
       MOVE 8,V@0,G@NAMES
       MOVE 8,V@32,G@NAMES+8
       MOVE 8,V@64,G@NAMES+16
       MOVE 8,V@96,G@NAMES+24
       EXIT
REGS   BYTE >00,>E0,>00,>0E,>01,>06,>00,>F1
NAMES  BYTE 0,1,2,3,4,5,6,7,8,9,10,11,12,13,14,15
       BYTE 16,17,18,19,20,21,22,23,24,25,26,27,28,29,30,31
"""


class Pattern(Calling):
    def written(self, data, *words):
        """What the tool writes of a picture."""
        self.file('a.png', data)
        ended = self.call('pattern', 'a.png', *words)
        self.assertEqual((ended.returncode, ended.stderr), (0, b''))
        return ended.stdout.decode()

    def test_a_program_that_loads_them_shows_the_picture(self):
        for number in range(3):
            lines = numbers(random.Random(number))
            made = {self.written(data, '--label', 'shapes', '--colours', 'HUES') for data in pictures(lines)}
            self.assertEqual(len(made), 1)
            source = PROGRAM + made.pop() + '       END  START\n'
            ended = Program(os.environ['TI_BENCH']).run('run', '20', given=source.encode())
            shown = points(dump(ended.out.decode()))
            self.assertEqual([list(row[:WIDTH]) for row in shown[:HEIGHT]], lines)

    def test_grey_points_and_lines_in_columns(self):
        rows = [bytes([0b11110000, 0b00000000])] * 8 + [bytes([0b10000000, 0b11111111])] * 8
        self.assertEqual(self.written(png(0, 1, rows, 1, width=16)), '''       BYTE >F0,>F0,>F0,>F0,>F0,>F0,>F0,>F0  0
       BYTE >00,>00,>00,>00,>00,>00,>00,>00  1
       BYTE >80,>80,>80,>80,>80,>80,>80,>80  2
       BYTE >FF,>FF,>FF,>FF,>FF,>FF,>FF,>FF  3
''')
        self.assertEqual([line[12:15] for line in self.written(png(0, 1, rows, 1, width=16), '--columns').splitlines()],
                         ['>F0', '>80', '>00', '>FF'])

    def test_what_is_transparent_is_behind_the_points(self):
        rows = [bytes([200, 0] * 4 + [0, 255] * 4)] * 8
        made = self.written(png(4, 8, rows, 2, width=8), '--colours', 'C')
        self.assertEqual(made, '       BYTE >0F,>0F,>0F,>0F,>0F,>0F,>0F,>0F  0\nC      BYTE >10\n')

    def test_each_group_with_a_third_colour_is_named(self):
        lines = numbers(random.Random(5))
        for row, column in ((3, 17), (20, 40)):
            lines[row][column] = next(it for it in range(2, 16) if it not in lines[row] + lines[row // 8 * 8])
        self.file('a.png', next(pictures(lines)))
        ended = self.call('pattern', 'a.png', '-o', 'out')
        self.assertEqual((ended.returncode, (self.folder / 'out').exists()), (1, False))
        self.assertEqual([row.split(' is ')[0] for row in ended.stderr.decode().splitlines()],
                         ['a.png: the character 2, at 16,0,', 'a.png: the character 21, at 40,16,'])

    def test_what_is_no_picture_is_refused_by_name(self):
        good = next(pictures(numbers(random.Random(1))))
        interlaced = SIGNATURE + chunk(b'IHDR', struct.pack('>IIBBBBB', 8, 8, 8, 3, 0, 0, 1))
        deep = SIGNATURE + chunk(b'IHDR', struct.pack('>IIBBBBB', 8, 8, 16, 2, 0, 0, 0))
        large = SIGNATURE + chunk(b'IHDR', struct.pack('>IIBBBBB', 60000, 60000, 8, 3, 0, 0, 0))
        for data, text in ((b'GIF89a', 'no PNG file'), (SIGNATURE, 'no PNG file'), (good[:-20], 'damaged or cut'),
                           (good.replace(b'IDAT', b'IDAX'), 'damaged or cut'), (interlaced, 'interlaced'),
                           (deep, 'interlaced, or of more than 8 bits'), (large, 'more than a screen has'),
                           (SIGNATURE + chunk(b'IHDR', struct.pack('>IIBBBBB', 8, 8, 8, 0, 0, 0, 0)), 'not as many'),
                           (png(3, 8, [b'\5' * 8] * 8, 1, chunk(b'PLTE', bytes(12)), 8), 'the palette has not'),
                           (png(0, 8, [b'\5' * 9] * 8, 1, width=9), '9 by 8 points are no whole characters')):
            self.file('b.png', data)
            ended = self.call('pattern', 'b.png')
            self.assertEqual((ended.returncode, ended.stdout), (1, b''), text)
            self.assertIn(text, ended.stderr.decode())
            self.assertEqual(ended.stderr.count(b'\n'), 1, ended.stderr)

    def test_files_and_words_that_do_not_fit(self):
        self.file('a.png', next(pictures(numbers(random.Random(1)))))
        for words, status in ((['none.png'], 3), (['a.png', '-o', 'a.png'], 2), (['a.png', '--label', 'TOOLONG'], 2),
                              (['a.png', '-o', '/dev/full'], 3)):
            self.assertEqual(self.call('pattern', *words).returncode, status, words)
