"""What a word of a test names: bytes of the state, a bit of the status, or something that is counted."""
import re
import typing

from stepping.places import CELLS, CELLS_END, REGISTERS, VIDEO
from testing.values import NAME, BadWord, known, number

STATUS = 0x837C
BITS = {'H': 0x80, 'GT': 0x40, 'COND': 0x20, 'CARRY': 0x10, 'OVF': 0x08}
ROWS, COLUMNS = 24, 32
WORD = re.compile(rf'(@|V@|R@)?((?:>[0-9A-Fa-f]{{1,4}}|[0-9]{{1,5}}|{NAME})(?:[+-][^:]*)?)(?::([0-9]{{1,5}}))?', re.I)
ROW = re.compile(r'row@([0-9]{1,2})(?:\+([0-9]{1,2}))?')
BIT = re.compile(r'bit@([A-Za-z]+)')
VISITS = re.compile(rf'visits@({NAME})')
# where each kind of bytes begins and ends, and what is said of an address that is outside
AREAS = {'@': (0, CELLS, CELLS_END, 'no cell that a program sees, from >8300 to >83C1'),
         'V@': (VIDEO, VIDEO, REGISTERS, 'not in the video memory, from >0000 to >3FFF'),
         'R@': (REGISTERS, REGISTERS, REGISTERS + 8, 'no register of the video processor, from 0 to 7')}


class State(typing.NamedTuple):
    """What is asked at the end of a case: the memory, how many steps were made, and how often each address was
    reached."""
    memory: bytearray
    steps: int
    visits: dict


class Bytes(typing.NamedTuple):
    """Bytes of cells, video memory or registers: the word, the first byte, how many bytes a number has there, and the
    end of their kind."""
    word: str
    at: int
    size: int
    end: int

    def begin(self, memory):
        """Where they begin in a memory."""
        return self.at

    @property
    def addresses(self):
        return tuple(range(self.at, self.at + self.size))

    @property
    def room(self):
        """How many bytes there are up to the end of their kind."""
        return self.end - self.at

    def number(self, state):
        """The number that they hold."""
        return int.from_bytes(state.memory[self.at:self.at + self.size], 'big')


class Row(typing.NamedTuple):
    """A row of the screen, or its characters from a column on."""
    word: str
    row: int
    column: int
    is_whole: bool
    size: int = 1

    def begin(self, memory):
        """Where it begins: register 2 of the video processor says where the screen is."""
        return VIDEO + (memory[REGISTERS + 2] % 16 * 1024 + COLUMNS * self.row + self.column)

    @property
    def room(self):
        """How many characters there are up to the end of the row."""
        return COLUMNS - self.column


class Bit(typing.NamedTuple):
    """A bit of the status."""
    word: str
    mask: int
    size: int = 1
    addresses: tuple = (STATUS,)

    def number(self, state):
        return int(bool(state.memory[STATUS] & self.mask))


class Steps(typing.NamedTuple):
    """How many steps were made."""
    word: str
    size: int = 1
    addresses: tuple = ()

    def number(self, state):
        return state.steps


class Visits(typing.NamedTuple):
    """How often a label was reached."""
    word: str
    address: int
    size: int = 1
    addresses: tuple = ()

    def number(self, state):
        return state.visits.get(self.address, 0)


class Ends(typing.NamedTuple):
    """How a case ends, as a column of a table."""
    word: str


def row_of(word, found):
    """The row that a word names."""
    row, column = int(found[1]), int(found[2] or 0)
    if row >= ROWS or column >= COLUMNS:
        raise BadWord(f'{word}: the screen has the rows 0 to 23 and the columns 0 to 31')
    return Row(word, row, column, found[2] is None)


def bit_of(word, name):
    """The bit of the status that a word names."""
    if name.upper() not in BITS:
        raise BadWord(f'{word}: the bits of the status are {", ".join(BITS)}')
    return Bit(word, BITS[name.upper()])


def bytes_of(word, names):
    """The bytes that a word names."""
    found = WORD.fullmatch(word)
    if not found:
        raise BadWord(f'{word or "nothing"} is no place')
    kind, address, size = (found[1] or '@').upper(), found[2], int(found[3] or 1)
    base, begin, end, outside = AREAS[kind]
    at = base + number(address, names)
    if not begin <= at < end:
        raise BadWord(f'{word} is {outside}')
    if not 1 <= size <= end - at:
        raise BadWord(f'{word}: there are 1 to {end - at:,} bytes from there on')
    return Bytes(word, at, size, end)


def place_of(word, names):
    """The place that a word names."""
    if word == 'steps':
        return Steps(word)
    if word == 'ends':
        return Ends(word)
    if found := ROW.fullmatch(word):
        return row_of(word, found)
    if found := BIT.fullmatch(word):
        return bit_of(word, found[1])
    if found := VISITS.fullmatch(word):
        return Visits(word, known(found[1], names))
    return bytes_of(word, names)


def area_of(word, names):
    """The place that a word names, which must be one of bytes."""
    place = place_of(word, names)
    if not isinstance(place, (Bytes, Row)):
        raise BadWord(f'{word} has no bytes')
    return place
