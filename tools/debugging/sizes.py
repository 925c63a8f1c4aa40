"""How many bytes places have, by the instructions that use them and the lines that define them; and which names of a
source are names of memory."""
import itertools
import re
import typing

from expanding.lines import operation_of
from stepping.places import CELLS, CELLS_END, REGISTERS, VIDEO

OPERAND = re.compile(r'([VG]?)([@*])>([0-9A-F]{4})(?:\(@>([0-9A-F]{4})\))?')
# operations of GPL on words; of DEC, DECT and DIV the D is a part of the name
OF_WORDS = re.compile(r'D(?!EC$|ECT$|IV$)')
# operations whose destination has twice the bytes of the source
DOUBLE = {'MUL', 'DIV', 'DMUL', 'DDIV'}
IN_VIDEO = re.compile(r"(?<![0-9A-Z])V@([A-Z][0-9A-Z]*)", re.I)
WORD, SCRATCHPAD = 2, range(0x8300, 0x8400)
SIZED = {'DATA', 'BYTE', 'TEXT', 'BSS'}


class Place(typing.NamedTuple):
    """A name of memory: its place in the one space of addresses, and how many bytes it has."""
    name: str
    at: int
    size: int


class Sizes:
    """What instructions of GPL say of places: the bytes that they take there, and which are the beginnings of tables
    that an index goes through."""

    def __init__(self, texts):
        self.sizes, self.tables = {}, set()
        for text in texts:
            self.take(text)

    def note(self, at, size):
        self.sizes[at] = max(size, self.sizes.get(at, 0))

    def take(self, text):
        operation, _, rest = text.partition(' ')
        operands = rest.split(',')
        size = WORD if OF_WORDS.match(operation) else 1
        if operation == 'MOVE':
            if OPERAND.fullmatch(operands[0]):
                self.operand(operands[0], WORD)
            size = int(operands[0][1:], 16) if operands[0][:1] == '>' else 1
            operands = operands[1:]
        for index, operand in enumerate(operands):
            self.operand(operand, size)
            if index == 0 and operation in DOUBLE:
                self.double(operand, size)

    def operand(self, text, size):
        """Notes what an operand says: its own bytes, or its pointer, and its index."""
        found = OPERAND.fullmatch(text)
        if not found:
            return
        space, mode, at, index = found.groups()
        place = int(at, 16) + (VIDEO if space and mode == '@' else 0)
        if space == 'G':
            size = 0
        if mode == '*':
            self.note(place, WORD)
        elif index and size:
            self.tables.add(place)
        elif size:
            self.note(place, size)
        if index:
            self.note(int(index, 16), WORD)

    def double(self, text, size):
        """A destination of two bytes is a word; one of four is two words."""
        found = OPERAND.fullmatch(text)
        if found and found[2] == '@' and not found[4]:
            place = int(found[3], 16) + (VIDEO if found[1] else 0)
            self.note(place, WORD)
            if size == WORD:
                self.note(place + WORD, WORD)

    @property
    def words(self):
        """The places of words."""
        return sorted(at for at, size in self.sizes.items() if size == WORD)


def gpl_places(names, lines, cells, sizes):
    """The names of a GPL source that name memory: those whose values are cells, and those that a line uses in video
    memory. A name of a block of cells has the width that the block gives it; another one the bytes that instructions
    take there. What is longer than a word, or a table, ends before the next name."""
    in_video = {name.upper() for text in lines for name in IN_VIDEO.findall(text)}
    found = {(name, value) for name, value in names if CELLS <= value < CELLS_END}
    found |= {(name, VIDEO + value) for name, value in names
              if name.upper() in in_video and not CELLS <= value < CELLS_END and value < REGISTERS - VIDEO}
    widths = {(name.upper(), at): width for name, at, width in cells}
    starts = sorted({at for _, at in found})
    after = {at: end for at, end in zip(starts, [*starts[1:], REGISTERS])}
    for name, at in sorted(found, key=lambda it: (it[1], it[0])):
        most = min(after[at], CELLS_END if at < VIDEO else REGISTERS) - at
        size = sizes.sizes.get(at, 1)
        if at in sizes.tables:
            size = most
        yield Place(name, at, widths.get((name.upper(), at)) or (size if size <= WORD else min(size, most)))


def processor_places(names, lines):
    """The names of assembler sources that name memory: the labels of DATA, BYTE, TEXT and BSS, with the bytes of their
    lines, and the names of words of the scratchpad. A line has as many bytes as the next one is after it."""
    sizes = {}
    for line, after in itertools.zip_longest(lines, lines[1:]):
        text = line.text.decode('latin-1')
        if operation_of(text) in SIZED and text[:1].strip() and text[0] != '*':
            size = len(line.data) or (after.address - line.address if after else 0)
            sizes[text.split()[0].upper(), line.address] = size
    labels = {text.split()[0].upper() for text in (line.text.decode('latin-1') for line in lines)
              if text[:1].strip() and text[0] != '*' and operation_of(text) == 'EQU'}
    found = {}
    for name, value in names:
        size = sizes.get((name.upper(), value), 0)
        if size > 0:
            found[name, value] = size
        elif name.upper() in labels and value in SCRATCHPAD:
            found[name, value] = WORD
    return [Place(name, at, size) for (name, at), size in sorted(found.items(), key=lambda it: (it[0][1], it[0][0]))]
