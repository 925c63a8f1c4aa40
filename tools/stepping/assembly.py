"""The lines and names of assembler sources, as `list` of ti_debug lists them, and where they are in linked memory.

The loader puts the relocatable part of a module at an address that a listing does not have. It is found: at it linked
memory has all that the lines place.
"""
import re
import typing

from lib import command

LINE = re.compile(rb"([ 0-9]{6}[0-9]) >([0-9A-F]{4})([ '-]) (.{24})(.*)", re.S)
MORE = re.compile(rb" {8}>[0-9A-F]{4}[ '-] (.{24})")
PLACED = re.compile(rb"([0-9A-F]{4})([ '*]) |([0-9A-F]{2}) ")
FILE = re.compile(rb'file(?: (.+))?')
NAME = re.compile(rb"name >([0-9A-F]{4})([ '*]) [a-z]{8,11} *([0-9]+) (\S+)(?: (.+))?")
ABSOLUTE, RELOCATABLE, EXTERNAL, DUMMY = " '*-"


class Value(typing.NamedTuple):
    """A word or a byte that a line places, or what a name stands for: its number, its mark and its size in bytes."""
    number: int
    mark: str
    size: int = 2

    def at(self, base):
        """Its bytes if the relocatable part begins at an address; None for each byte of another module's name."""
        if self.mark == EXTERNAL:
            return [None] * self.size
        number = self.number + (base if self.mark == RELOCATABLE else 0)
        return list((number % 0x10000).to_bytes(self.size, 'big'))


class Line(typing.NamedTuple):
    """A line: the copied file that it is in, or None; its number there; its place, and the mark of the part that has
    this place; the values that it places; and its text."""
    file: str
    number: int
    place: int
    part: str
    values: list
    text: bytes

    def bytes_at(self, base):
        """What it places, by its offsets from the line's place; a dummy section places nothing."""
        return [] if self.part == DUMMY else [byte for value in self.values for byte in value.at(base)]

    def address(self, base):
        return (self.place + (base if self.part == RELOCATABLE else 0)) % 0x10000


class Name(typing.NamedTuple):
    """A name, what it stands for, and the file and the number of the line that defines it."""
    name: str
    value: Value
    file: str
    number: int


class Listing(typing.NamedTuple):
    """The lines of a source, with those that it copies, and its names."""
    lines: list
    names: list


class Placed(typing.NamedTuple):
    """A line at its address in linked memory, with its bytes there; its number in its file; and what it is called: its
    number and its file."""
    number: int
    address: int
    data: bytes
    text: bytes
    name: str


def values_in(columns):
    """The values that a row shows."""
    for word, mark, byte in PLACED.findall(columns):
        yield Value(int(word, 16), mark.decode()) if word else Value(int(byte, 16), ABSOLUTE, 1)


def decoded(text):
    return text and text.decode('latin-1')


def listing_of(report):
    """The listing that a report of `list` shows."""
    lines, names, file = [], [], None
    for row in report.split(b'\n')[:-1]:
        if line := LINE.fullmatch(row):
            number, place, part, columns, text = line.groups()
            lines.append(Line(file, int(number), int(place, 16), part.decode(), list(values_in(columns)), text))
        elif more := MORE.fullmatch(row):
            lines[-1].values.extend(values_in(more[1]))
        elif found := FILE.fullmatch(row):
            file = decoded(found[1])
        elif name := NAME.fullmatch(row):
            value = Value(int(name[1], 16), name[2].decode())
            names.append(Name(decoded(name[4]), value, decoded(name[5]), int(name[3])))
        else:
            raise command.Stopped(f'no line of a listing: {row.decode("latin-1")}')
    return Listing(lines, names)


def is_at(lines, base, memory):
    """Whether linked memory has all that lines place, if the relocatable part begins at an address."""
    return all(at in memory and byte in (None, memory[at])
               for line in lines for at, byte in enumerate(line.bytes_at(base), line.address(base)))


def base_of(path, listing, linked, memory):
    """The address at which the relocatable part of a module begins in linked memory. If its lines would fit at several
    ones, it is the one that gives its names the values that are linked."""
    placing = [line for line in listing.lines if line.values and line.part != DUMMY]
    first = next((line.place for line in placing if line.part == RELOCATABLE), None)
    bases = [0] if first is None else sorted({(at - first) % 0x10000 for at in memory})
    found = [base for base in bases if base % 2 == 0 and is_at(placing, base, memory)]
    if len(found) > 1:
        own = [(name.name, name.value) for name in listing.names if name.value.mark == RELOCATABLE]
        found = [base for base in found
                 if any(linked.get(name) == (value.number + base) % 0x10000 for name, value in own)]
    if len(found) != 1:
        where = 'at several places of' if found else 'not in'
        raise command.Stopped(f'{path}: the words of this source are {where} the object text')
    return found[0]


def placed(path, listing, linked, memory, prefix=''):
    """The lines of a source at their addresses in linked memory, and its names with their values there. Linked memory
    is given by its names and by its bytes. What a line is called begins with a prefix."""
    base = base_of(path, listing, linked, memory)
    lines = []
    for line in listing.lines:
        at, size = line.address(base), len(line.bytes_at(base))
        name = f'{line.file}:{line.number}' if line.file else f'{prefix}{line.number}'
        lines.append(Placed(line.number, at, bytes(memory[at + offset] for offset in range(size)), line.text, name))
    names = [(name.name, int.from_bytes(name.value.at(base), 'big')) for name in listing.names
             if name.value.mark != EXTERNAL]
    return lines, names
