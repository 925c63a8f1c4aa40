"""PNG files, read to points (PNG specification, third edition): not interlaced, of 1 to 8 bits."""
import struct
import zlib

from lib.command import FAILED, Stopped
from lib.picture import SIGNATURE

# the samples of a point by the kind of colour: grey, red green blue, a number of the palette, and with alpha
SAMPLES = {0: 1, 2: 3, 3: 1, 4: 2, 6: 4}
GREY, PALETTE = (0, 4), 3
MOST_POINTS = 256 * 192


class Bad(Stopped):
    """A file that is no picture of this kind."""

    def __init__(self, path, cause):
        super().__init__(f'{path}: {cause}', FAILED)


def chunks(path, data):
    """The chunks of a file: kind and data. Their check sums must be right."""
    at = len(SIGNATURE)
    while at < len(data):
        length = int.from_bytes(data[at:at + 4], 'big')
        kind, body = data[at + 4:at + 8], data[at + 8:at + 8 + length]
        if data[at + 8 + length:at + 12 + length] != struct.pack('>I', zlib.crc32(kind + body)):
            raise Bad(path, 'a chunk of the PNG file is damaged or cut')
        yield kind, body
        at += 12 + length


def predicted(kind, left, above, corner):
    """What a filter adds to a byte."""
    if kind == 4:
        guess = left + above - corner
        return min((left, above, corner), key=lambda it: abs(guess - it))
    return (0, left, above, (left + above) // 2)[kind]


def unfiltered(path, raw, height, width, step):
    """The lines of bytes of unpacked data; a byte is filtered by the one as many as `step` before it."""
    before = bytearray(width)
    for row in range(height):
        kind, line = raw[row * (width + 1)], bytearray(raw[row * (width + 1) + 1:(row + 1) * (width + 1)])
        if kind > 4:
            raise Bad(path, 'a line of the PNG file has an unknown filter')
        for at in range(width):
            left, corner = (line[at - step], before[at - step]) if at >= step else (0, 0)
            line[at] = (line[at] + predicted(kind, left, before[at], corner)) & 0xFF
        yield line
        before = line


def samples(line, depth, count):
    """The samples of a line, of some bits each."""
    if depth == 8:
        return list(line[:count])
    each = 8 // depth
    return [line[at // each] >> 8 - depth - at % each * depth & (1 << depth) - 1 for at in range(count)]


def colour(point, kind, depth, palette, clear):
    """The red, green, blue and alpha of a point."""
    if kind == PALETTE:
        return (*palette[point[0]], clear[point[0]] if point[0] < len(clear) else 255)
    if kind in GREY:
        grey = point[0] * 255 // ((1 << depth) - 1)
        return (grey, grey, grey, *(point[1:] or [255]))
    return (*point, 255)[:4]


def points(path, data):
    """The lines of points of a PNG file, each point its red, green, blue and alpha."""
    if not data.startswith(SIGNATURE):
        raise Bad(path, 'no PNG file')
    found = list(chunks(path, data))
    parts = dict(found)
    if found[:1] == [] or found[0][0] != b'IHDR' or len(found[0][1]) != 13:
        raise Bad(path, 'no PNG file')
    width, height, depth, kind, _, _, interlaced = struct.unpack('>IIBBBBB', parts[b'IHDR'])
    if interlaced or depth > 8 or kind not in SAMPLES:
        raise Bad(path, 'interlaced, or of more than 8 bits; save it as a plain PNG file')
    if not 0 < width * height <= MOST_POINTS:
        raise Bad(path, f'{width} by {height} points are more than a screen has')
    size = (width * SAMPLES[kind] * depth + 7) // 8
    try:
        raw = zlib.decompressobj().decompress(b''.join(body for name, body in found if name == b'IDAT'),
                                              height * (size + 1) + 1)
    except zlib.error:
        raise Bad(path, 'the points of the PNG file cannot be unpacked') from None
    if len(raw) != height * (size + 1):
        raise Bad(path, 'the PNG file has not as many points as it says')
    table = parts.get(b'PLTE', b'')
    palette = [tuple(table[at:at + 3]) for at in range(0, len(table), 3)]
    made = []
    for line in unfiltered(path, raw, height, size, max(1, SAMPLES[kind] * depth // 8)):
        row = samples(line, depth, width * SAMPLES[kind])
        if kind == PALETTE and max(row) >= len(palette):
            raise Bad(path, 'a point has a number that the palette has not')
        made.append([colour(row[at:at + SAMPLES[kind]], kind, depth, palette, parts.get(b'tRNS', b''))
                     for at in range(0, len(row), SAMPLES[kind])])
    return made
