"""Bytes at addresses, in one segment or in several."""
import re

from lib.command import UNREADABLE, Stopped

MEMORY = 0x10000
RELOCATABLE = 0xA000       # where `link` places the first relocatable code
GROUP = re.compile('([9ABC])([0-9A-F]{4})')      # of an object text: a load address or a word


class Image:
    """The bytes of a memory of 65,536, and which of them are held.

    `places` has a 1 for each address of the image: of those that are held, and of gaps before and after them, which
    hold nothing. `moving` are the places at which relocatable code starts, also after a gap.
    """

    def __init__(self, segments, gaps=(), moving=()):
        self.memory, self.held = bytearray(MEMORY), bytearray(MEMORY)
        self.segments, self.gaps, self.moving = [], dict(gaps), moving
        for start, data in segments:
            self.memory[start:start + len(data)] = data
            self.held[start:start + len(data)] = b'\1' * len(data)
            self.segments.append((start, start + len(data)))
        self.size = sum(end - start for start, end in self.segments)
        self.places = bytearray(self.held) + b'\0'
        for start, end in gaps:
            self.places[start:end + 1] = b'\1' * (end + 1 - start)

    def holds(self, address, length=1):
        """Whether all bytes from an address on are held."""
        return address + length <= MEMORY and self.held.find(0, address, address + length) < 0

    def end(self, address):
        """Where the segment of an address ends."""
        return next(end for start, end in self.segments if start <= address < end)

    def bytes(self, start, end):
        return bytes(self.memory[start:end])

    def word(self, address):
        return self.memory[address] << 8 | self.memory[address + 1]

    def first_difference(self, other):
        """The lowest held address at which another image has another byte, or none."""
        for start, end in self.segments:
            if self.bytes(start, end) != other.bytes(start, end):
                return next(at for at in range(start, end) if self.memory[at] != other.memory[at])
        return None


def of_link(report):
    """The entry, the names with their values, and the image of what `link` lists."""
    lines = report.decode('latin-1').split('\n')[:-1]
    names, segments = [], []
    for line in lines:
        row = re.fullmatch(r'>([0-9A-F]{4})((?: [0-9A-F]{4})+)', line)
        name = re.fullmatch('(.+) >([0-9A-F]{4})', line)
        if name:
            names.append((name[1], int(name[2], 16)))
        elif row is None:
            raise Stopped(f'link lists {line}', UNREADABLE)
        elif segments and segments[-1][0] + len(segments[-1][1]) == int(row[1], 16):
            segments[-1] = (segments[-1][0], segments[-1][1] + bytes.fromhex(row[2]))
        else:
            segments.append((int(row[1], 16), bytes.fromhex(row[2])))
    if not names or sum(len(data) for _, data in segments) > MEMORY:
        raise Stopped('link lists no entry, or too much', UNREADABLE)
    return names[0][1], names[1:], Image(segments)


def words_of(text):
    """The words of a module's object text, in the order in which they stand."""
    found = bytearray()
    for number, line in enumerate(text.decode('latin-1').split('\n')):
        at = len('00000') + 8 if number == 0 else 0
        while group := GROUP.match(line, at):
            if group[1] in 'BC':
                found += bytes.fromhex(group[2])
            at = group.end()
    return bytes(found)
