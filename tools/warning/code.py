"""The statements and the data of a source, by their addresses, as `glist` and `gdis` write them."""
import bisect
import dataclasses
import re

from expanding.expression import REGISTERS, Unvalued, value
from expanding.lines import operation_of, parts_of
from lib.command import Stopped
from lib.languages import GPL, OPERATIONS

# a byte that begins no instruction, in the place of data; and how it is listed
FILLER, LISTED_FILLER = 0x08, 'BYTE >08'
NUMBER = re.compile('>([0-9A-F]{4})')
TO_PLACES = ('B', 'BR', 'BS', 'CALL')
GROM = 0x2000


@dataclasses.dataclass(frozen=True)
class Statement:
    """An instruction: the number of its line, its address, how many bytes it has, and its text as `gdis` lists it."""
    number: int
    address: int
    size: int
    operation: str
    operands: tuple

    @property
    def after(self):
        """The next address of its GROM."""
        return self.address // GROM * GROM + (self.address + self.size) % GROM

    @property
    def target(self):
        """Where it goes on, if its operand says that; else None."""
        return int(self.operands[0][1:], 16) if self.operation in TO_PLACES else None


class Code:
    """The statements of a source, its lines of data, both by the address of their first bytes, the values of its
    names, and its entry, if it has one."""

    def __init__(self, bench, listing, image):
        placing = sorted((line for line in listing.lines if line.data), key=lambda line: line.address)
        self.data = {line.address: line for line in placing if not is_statement(line)}
        lines = [line for line in placing if is_statement(line)]
        texts = listed(bench, lines, placing[0].address if placing else 0, len(image))
        self.statements = {line.address: statement(line, text) for line, text in zip(lines, texts)}
        self.names, self.entry = listing.names, entry_of(listing)
        self.starts = [line.address for line in placing]

    def line_of_data(self, address):
        """The line that places data at an address, or None."""
        before = bisect.bisect(self.starts, address) - 1
        line = self.data.get(self.starts[before]) if before >= 0 else None
        return line if line and address < line.address + len(line.data) else None

    def in_order(self):
        """The statements by address."""
        return sorted(self.statements.values(), key=lambda it: it.address)

    def mentioned(self):
        """The numbers of two bytes that stand in data, or in a statement that does not go on there."""
        joined = b''.join(line.data for line in self.data.values())
        found = {int.from_bytes(joined[at:at + 2], 'big') for at in range(len(joined) - 1)}
        return found | {int(number, 16) for it in self.statements.values() if it.target is None
                        for operand in it.operands for number in NUMBER.findall(operand)}


def entry_of(listing):
    """The address that END gives; None if there is none."""
    ends = [parts_of(line.text.decode('latin-1')) for line in listing.lines[-1:]]
    names = {**REGISTERS, **{name.name: name.value for name in listing.names}}
    try:
        return next((value(end.operands, names) for end in ends if end.operation.upper() == 'END'), None)
    except Unvalued:
        return None


def is_statement(line):
    return operation_of(line.text.decode('latin-1')) in OPERATIONS[GPL]


def statement(line, text):
    operation, _, operands = text.strip().partition(' ')
    parted = tuple(operands.split(',')) if operands else ()
    return Statement(line.number, line.address, len(line.data), operation, parted)


def listed(bench, lines, first, size):
    """The text of each line of an image that begins at an address, as `gdis` lists it. All bytes of the image that are
    not of these lines begin no instruction there; the listing must be assembled to the same bytes again."""
    image = bytearray([FILLER]) * size
    for line in lines:
        image[line.address - first:line.address - first + len(line.data)] = line.data
    listing = bench.run('gdis', f'{first:04X}', given=bytes(image)).out
    rows = [row.strip() for row in listing.decode('latin-1').splitlines()]
    texts = [row for row in rows if row != LISTED_FILLER and not row.startswith(('GROM ', 'AORG ', 'END'))]
    if len(texts) != len(lines) or bench.run('gasm', given=listing).out != bytes(image):
        raise Stopped('the program does not list the instructions that it has assembled')
    return texts
