"""GPL instructions as bytes of a GROM image, and their texts in a listing: the codes of the GPL Programmer's Guide,
with operands and MOVE in the profile's byte forms."""
import typing

from gpl_assembler import SCRATCHPAD, operand_bytes
from gpl_table import WORD_BIT, codes

CODES = codes()

# an operand: in VDP memory, by a pointer word, its offset or address, and the offset of its index word
Operand = typing.NamedTuple('Operand', [('vdp', bool), ('indirect', bool), ('address', int),
                                        ('index', typing.Optional[int])])
# what an instruction is: its name without the D of a word form, its form, its operands and values in the order of the
# stream, its text, the address after it, its length, and whether it stands in its shortest spelling
Instruction = typing.NamedTuple('Instruction', [('name', str), ('form', str), ('word', bool), ('parts', tuple),
                                                ('text', str), ('next', int), ('length', int), ('shortest', bool)])


def next_in_grom(address):
    """The next address: the GROM stays, and its thirteen bits wrap."""
    return address & 0xE000 | address + 1 & 0x1FFF


class Stream:
    """The bytes of an image from an address on, and what has been read."""

    def __init__(self, image, address):
        self.image = image
        self.address = address
        self.length = 0
        self.shortest = True

    def byte(self):
        found = self.image[self.address]
        self.address = next_in_grom(self.address)
        self.length += 1
        return found

    def word(self):
        return self.byte() << 8 | self.byte()

    def value(self, word):
        return self.word() if word else self.byte()

    def operand(self):
        """An operand of one, two or three bytes, and its index byte."""
        before = self.length
        first = self.byte()
        if first < 0x80:
            return Operand(False, False, first, None)
        address = self.word() if first & 0x0F == 0x0F else (first & 0x0F) << 8 | self.byte()
        index = self.byte() if first & 0x40 else None
        found = Operand(first & 0x20 != 0, first & 0x10 != 0, address, index)
        self.shortest &= self.length - before == len(operand_bytes(*found))
        return found


def index_text(index):
    return '' if index is None else f'(@>{SCRATCHPAD + index:04X})'


def operand_text(operand):
    address = operand.address
    if operand.indirect or not operand.vdp:
        address = address + SCRATCHPAD & 0xFFFF
    mark = '*' if operand.indirect else '@'
    return f"{'V' if operand.vdp else ''}{mark}>{address:04X}{index_text(operand.index)}"


def value_text(value, word):
    return f'>{value:04X}' if word else f'>{value:02X}'


def move_parts(stream, code, form):
    """Length, destination and source of MOVE, with their texts."""
    length = stream.word() if code & 1 else stream.operand()
    texts = [value_text(length, True) if code & 1 else operand_text(length)]
    target = stream.byte() if form == 'register' else stream.operand()
    texts.append(f'R@>{target:02X}' if form == 'register' else operand_text(target))
    if form == 'memory':
        source = stream.operand()
        texts.append(operand_text(source))
        return (length, target, source), texts
    grom = stream.word()
    index = stream.byte() if form == 'indexed' else None
    texts.append(f'G@>{grom:04X}{index_text(index)}')
    return (length, target, (grom, index)), texts


def decoded(image, address):
    """The instruction at an address, or None where no code that is kept stands there."""
    stream = Stream(image, address)
    code = stream.byte()
    if code not in CODES:
        return None
    name, form = CODES[code]
    word = form in ('one', 'two', 'immediate') and code & WORD_BIT != 0
    parts, texts = (), []
    if name == 'MOVE':
        parts, texts = move_parts(stream, code, form)
    elif form == 'value':
        parts = (stream.byte(),)
        texts = [value_text(parts[0], False)]
    elif form in ('address', 'branch'):
        low = stream.word() if form == 'address' else stream.byte()
        parts = (low if form == 'address' else address & 0xE000 | (code & 0x1F) << 8 | low,)
        texts = [value_text(parts[0], True)]
    elif form != 'plain':
        parts = (stream.operand(),)
        if form == 'two':
            parts += (stream.operand(),)
        texts = [operand_text(part) for part in parts]
        if form == 'immediate':
            parts += (stream.value(word),)
            texts.append(value_text(parts[1], word))
    text = f"{name} {','.join(texts)}" if texts else name
    return Instruction(name[1:] if word else name, form, word, parts, text, stream.address, stream.length,
                       stream.shortest)
