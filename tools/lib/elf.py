"""Which shared libraries a program for Linux on x86-64 needs, and which versions of their symbols."""
import struct

from lib.command import UNREADABLE, Stopped

# the bytes of the header of a file
HEADER = 64
LOAD, DYNAMIC, INTERPRETER = 1, 2, 3
NEEDED, STRINGS, VERSIONS_NEEDED, VERSIONS_COUNT = 1, 5, 0x6ffffffe, 0x6fffffff


class Program:
    """A program as its file has it (System V ABI, "Object Files")."""

    def __init__(self, data, path):
        self.data = data
        if len(data) < HEADER or data[:6] != b'\x7fELF\x02\x01' or struct.unpack_from('<H', data, 18)[0] != 62:
            raise Stopped(f'{path} is no program for Linux on x86-64', UNREADABLE)
        offset, = struct.unpack_from('<Q', data, 32)
        size, count = struct.unpack_from('<HH', data, 54)
        # of each segment the kind, the place in the file, the address and the length
        rows = [struct.unpack_from('<IIQQQQ', data, offset + size * number) for number in range(count)]
        self.segments = [(row[0], row[2], row[3], row[5]) for row in rows]
        self.dynamic = self.tags()

    def segment(self, kind):
        """Place and length of the first segment of a kind, both 0 if there is none."""
        return next(((place, length) for found, place, _, length in self.segments if found == kind), (0, 0))

    def tags(self):
        """The tags and values of the dynamic section."""
        place, length = self.segment(DYNAMIC)
        return [struct.unpack_from('<QQ', self.data, at) for at in range(place, place + length, 16)]

    def value(self, tag):
        """The value of a tag, 0 if there is none."""
        return next((value for found, value in self.dynamic if found == tag), 0)

    def place(self, address):
        """The place of an address in the file."""
        return next(place + address - first for kind, place, first, length in self.segments
                    if kind == LOAD and first <= address < first + length)

    def string(self, place):
        """The text at a place of the file."""
        return self.data[place:self.data.index(b'\0', place)].decode('ascii')

    def name(self, offset):
        """A text of the dynamic section."""
        return self.string(self.place(self.value(STRINGS)) + offset)

    def loader(self):
        """The path of the loader, empty if there is none."""
        place, length = self.segment(INTERPRETER)
        return self.string(place) if length else ''

    def libraries(self):
        """The names of the shared libraries, in the order of the file."""
        return [self.name(value) for tag, value in self.dynamic if tag == NEEDED]

    def versions(self):
        """Of each library the names of the versions that it must have."""
        found = {}
        count = self.value(VERSIONS_COUNT)
        at = self.place(self.value(VERSIONS_NEEDED)) if count else 0
        for _ in range(count):
            _, many, library, first, next_at = struct.unpack_from('<HHIII', self.data, at)
            row = at + first
            for _ in range(many):
                _, _, _, version, next_row = struct.unpack_from('<IHHII', self.data, row)
                found.setdefault(self.name(library), []).append(self.name(version))
                row += next_row
            at += next_at
        return found


def newest(versions):
    """The number of the newest of some versions, as 2.34 of GLIBC_2.34."""
    numbers = [version.rpartition('_')[2] for version in versions]
    return max((number for number in numbers if number[:1].isdigit()),
               key=lambda number: [int(part) for part in number.split('.')], default='')
