"""The screen that a state shows: its rows of characters, its points, and pictures of them as PNG files."""
import functools
import struct
import zlib

from lib.command import Stopped

ROWS, LINES, WIDTH = 24, 192, 256
SIGNATURE = b'\x89PNG\r\n\x1a\n'
# the sixteen colours of the video processor in red, green and blue; the first is transparent
COLOURS = [(0, 0, 0), (0, 0, 0), (33, 200, 66), (94, 220, 120), (84, 85, 237), (125, 118, 252), (212, 82, 77),
           (66, 235, 245), (252, 85, 84), (255, 121, 120), (212, 193, 84), (230, 206, 128), (33, 176, 59),
           (201, 91, 186), (204, 204, 204), (255, 255, 255)]
GRAPHICS_I, TEXT = 'graphics mode I', 'text mode'


def mode(registers):
    """The mode by its bits M1 and M2 in register 1 and M3 in register 0 (TMS9918A data manual, "Display modes")."""
    bits = registers[1] >> 4 & 1, registers[1] >> 3 & 1, registers[0] >> 1 & 1
    return {(0, 0, 0): GRAPHICS_I, (1, 0, 0): TEXT, (0, 1, 0): 'multicolor mode',
            (0, 0, 1): 'graphics mode II'}.get(bits, 'no mode of the manual')


def names(shown, columns):
    """The rows of the name table, which register 2 places."""
    at = shown.registers[2] % 16 * 1024
    return [shown.vdp[at + columns * row:at + columns * (row + 1)] for row in range(ROWS)]


def text_rows(shown):
    """The screen as text."""
    for row in names(shown, 40 if mode(shown.registers) == TEXT else 32):
        yield ''.join(chr(byte) if 0x20 <= byte < 0x7F else '.' for byte in row)


@functools.lru_cache(maxsize=4096)
def eight(bits, pair, backdrop):
    """The colours of eight points in a row: the pattern's bits choose one of a pair of colours, and what is transparent
    is the backdrop."""
    return bytes((pair >> 4 if bits >> place & 1 else pair & 15) or backdrop for place in range(7, -1, -1))


def points(shown):
    """The colour of each point, by lines."""
    colours, patterns = shown.registers[3] * 64, shown.registers[4] % 8 * 2048
    backdrop = shown.registers[7] % 16
    if not shown.registers[1] >> 6 & 1:
        return [bytes([backdrop]) * WIDTH] * LINES
    rows = names(shown, 32)
    return [b''.join(eight(shown.vdp[patterns + 8 * name + line % 8], shown.vdp[colours + name // 8], backdrop)
                     for name in rows[line // 8])
            for line in range(LINES)]


def lacks_patterns(shown):
    """Whether the screen has several characters, and none of them a pattern: then a picture of it has colours alone."""
    if mode(shown.registers) != GRAPHICS_I or not shown.registers[1] >> 6 & 1:
        return False
    patterns, codes = shown.registers[4] % 8 * 2048, set(b''.join(names(shown, 32)))
    return len(codes) > 1 and not any(any(shown.vdp[patterns + 8 * code:][:8]) for code in codes)


def chunk(kind, data):
    """A chunk of a PNG file: length, kind, data, and their check sum."""
    return struct.pack('>I', len(data)) + kind + data + struct.pack('>I', zlib.crc32(kind + data))


def head():
    """The chunks that each file begins with: the size, and the colours."""
    palette = bytes(part for colour in COLOURS for part in colour)
    return chunk(b'IHDR', struct.pack('>IIBBBBB', WIDTH, LINES, 8, 3, 0, 0, 0)) + chunk(b'PLTE', palette)


def packed(lines):
    """Lines of points, each a number of COLOURS, as the data of a picture."""
    return zlib.compress(b''.join(b'\0' + line for line in lines), 9)


def png(lines):
    """A PNG file of lines of points."""
    return SIGNATURE + head() + chunk(b'IDAT', packed(lines)) + chunk(b'IEND', b'')


def film(frames):
    """An animated PNG file that plays once, of frames: each its lines of points and its milliseconds, at most 65,535
    (PNG specification, third edition, "Animation information")."""
    made, number = [chunk(b'acTL', struct.pack('>II', len(frames), 1))], 0
    for lines, milliseconds in frames:
        made.append(chunk(b'fcTL', struct.pack('>IIIIIHHBB', number, WIDTH, LINES, 0, 0, milliseconds, 1000, 0, 0)))
        number += 1
        if number == 1:
            made.append(chunk(b'IDAT', packed(lines)))
        else:
            made.append(chunk(b'fdAT', struct.pack('>I', number) + packed(lines)))
            number += 1
    return SIGNATURE + head() + b''.join(made) + chunk(b'IEND', b'')


def picture(shown):
    """The screen as a PNG file."""
    if mode(shown.registers) != GRAPHICS_I:
        raise Stopped(f'{mode(shown.registers)} is not drawn')
    return png(points(shown))
