"""The GPL assembler: a source's image, entry and names, or its first refused line. The statements are those of the GPL
Programmer's Guide; directives follow the Editor/Assembler manual; notation and order of refusals are the profile's.

First checks go through all lines; second checks, of values that may use names of later lines, come after them.
"""
import re
import typing

from gpl_table import MOVE, NO_IMMEDIATE, IMMEDIATE_BIT, operations
from gpl_text import REGISTERS, Fault, fields, operands, quoted, source_lines, value

SCRATCHPAD = 0x8300
GROM_SIZE = 0x2000

OPERATIONS = operations()
# how many operands each form takes
COUNTS = {'plain': (0, 0), 'value': (1, 1), 'address': (1, 1), 'branch': (1, 1), 'one': (1, 1), 'two': (2, 2),
          'move': (3, 3)}
DIRECTIVES = {'GROM': (1, 1), 'AORG': (1, 1), 'EQU': (1, 1), 'BSS': (1, 1), 'TEXT': (1, 1), 'END': (0, 1),
              'DATA': (1, 256), 'BYTE': (1, 256)}
PREFIX = re.compile(r'(V@|V\*|G@|R@|@|\*|)(.*)\Z', re.DOTALL)
MEMORY = ('@', 'V@', '*', 'V*')
# bytes of an open value
WIDTHS = {'byte': 1, 'word': 2, 'index': 1, 'register': 1, 'branch': 2, 'entry': 0}

Operand = typing.NamedTuple('Operand', [('prefix', str), ('address', str), ('index', typing.Optional[str])])
# a value of the second checks: what it is for, its expression, and the code byte of a branch
Open = typing.NamedTuple('Open', [('kind', str), ('text', str), ('code', int)])
Program = typing.NamedTuple('Program', [('image', dict), ('entry', typing.Optional[int]), ('names', dict)])


class Refused(Exception):
    """A refused source: the number of the line and the words of its fault line."""

    def __init__(self, line, words):
        super().__init__(f'line {line}: {words}')


def operand_form(text):
    """The form of an operand by its prefix. An index is '(@e)' at its end, outside quotes; all else is expression."""
    prefix, rest = PREFIX.match(text).groups()
    if prefix in ('', 'R@') or not rest.endswith(')') or rest.count("'") % 2:
        return Operand(prefix, rest, None)
    place = rest.find('(@')
    while place >= 0 and rest.count("'", 0, place) % 2:
        place = rest.find('(@', place + 1)
    if place < 0:
        return Operand(prefix, rest, None)
    return Operand(prefix, rest[:place], rest[place + 2:-1])


def operand_bytes(vdp, indirect, address, index):
    """An operand's shortest spelling: one byte for an offset up to 7F alone; else two bytes for twelve bits below F00,
    and three for all others, with X, V and I in the first byte and the index byte at the end."""
    if address <= 0x7F and not vdp and not indirect and index is None:
        return bytes([address])
    first = 0x80 | (index is not None) << 6 | vdp << 5 | indirect << 4
    end = b'' if index is None else bytes([index])
    if address < 0xF00:
        return bytes([first | address >> 8, address & 0xFF]) + end
    return bytes([first | 0x0F, address >> 8, address & 0xFF]) + end


def need(condition, words):
    if not condition:
        raise Fault(words)


class Assembler:
    """The lines taken so far: the location, names, and the lines with their bytes and open values."""

    def __init__(self):
        self.names = dict(REGISTERS)
        self.location = 0x6000
        self.grom = 0x6000
        self.lines = []
        self.taken = 0
        self.ended = False

    def line(self, text):
        """The first checks of a line, which is taken if they refuse nothing."""
        parts = fields(text)
        if parts is None:
            self.taken += 1
            return
        label, operation, field = parts
        need(label not in self.names, 'duplicate label')
        place = self.location
        if operation in OPERATIONS:
            items = self.instruction(operation, field)
        elif operation:
            need(operation in DIRECTIVES, 'unknown operation')
            items = self.directive(operation, label, field)
        else:
            items = []
        if operation not in ('GROM', 'AORG', 'EQU'):
            size = self.size(operation, items)
            need(place + size <= self.grom + GROM_SIZE, 'out of room')
            self.location = place + size
        self.taken += 1
        if items and operation not in ('GROM', 'AORG', 'EQU', 'BSS'):
            self.lines.append((self.taken, place, items))
        if label:
            self.names[label] = items[0] if operation == 'EQU' else (
                self.location if operation in ('GROM', 'AORG') else place) & 0xFFFF
        self.ended = operation == 'END'

    @staticmethod
    def size(operation, items):
        if operation == 'BSS':
            return items[0]
        return sum(WIDTHS[item.kind] if isinstance(item, Open) else len(item) for item in items)

    def directive(self, operation, label, field):
        """The items of a directive: bytes and open values, or the value that moves the location."""
        texts = operands(field)
        least, most = DIRECTIVES[operation]
        need(least <= len(texts) <= most, 'operand count')
        need(all(texts), 'bad operand')
        if operation == 'TEXT':
            characters = quoted(texts[0])
            need(characters is not None, 'bad operand')
            return [characters.encode('latin-1')]
        if operation in ('DATA', 'BYTE', 'END'):
            kind = {'DATA': 'word', 'BYTE': 'byte', 'END': 'entry'}[operation]
            return [Open(kind, text, 0) for text in texts]
        number = value(texts[0], self.names, self.location)
        if operation == 'EQU':
            need(label, 'bad directive')
        elif operation == 'GROM':
            need(number % GROM_SIZE == 0, 'bad directive')
            self.grom = self.location = number
        elif operation == 'AORG':
            need(number < GROM_SIZE, 'bad directive')
            self.location = self.grom + number
        return [number]

    def instruction(self, operation, field):
        """The items of an instruction. Operations without operands ignore the rest of the line."""
        form, code, word = OPERATIONS[operation]
        if form == 'plain':
            return [bytes([code])]
        texts = operands(field)
        least, most = COUNTS[form]
        need(least <= len(texts) <= most, 'operand count')
        need(all(texts), 'bad operand')
        forms = [operand_form(text) for text in texts]
        if form == 'move':
            return self.move(*forms)
        if form in ('one', 'two'):
            return self.operation(operation, code, word, forms)
        need(not forms[0].prefix, 'bad operand')
        if form == 'branch':
            return [Open('branch', texts[0], code)]
        return [bytes([code]), Open('byte' if form == 'value' else 'word', texts[0], 0)]

    def operation(self, operation, code, word, forms):
        """The items of an operation on one or two operands, destination first."""
        target, *source = forms
        need(target.prefix in MEMORY, 'bad operand')
        immediate = bool(source) and not source[0].prefix
        if source:
            need(source[0].prefix in MEMORY or immediate and operation not in NO_IMMEDIATE, 'bad operand')
        if immediate:
            return [bytes([code | IMMEDIATE_BIT]), self.memory(target),
                    Open('word' if word else 'byte', source[0].address, 0)]
        return [bytes([code]), *map(self.memory, forms)]

    def move(self, length, target, source):
        """The items of MOVE: length, destination and source."""
        need(length.prefix in ('', *MEMORY), 'bad operand')
        need(target.prefix in ('R@', *MEMORY), 'bad operand')
        need(source.prefix in ('G@', *MEMORY), 'bad operand')
        register = target.prefix == 'R@'
        need(not register or source.prefix == 'G@' and source.index is None, 'bad operand')
        form = ('register' if register else 'memory' if source.prefix != 'G@' else
                'grom' if source.index is None else 'indexed')
        immediate = not length.prefix
        items = [bytes([MOVE[form] | immediate])]
        items.append(Open('word', length.address, 0) if immediate else self.memory(length))
        items.append(Open('register', target.address, 0) if register else self.memory(target))
        if form == 'memory':
            return items + [self.memory(source)]
        items.append(Open('word', source.address, 0))
        return items + [Open('index', source.index, 0)] * (form == 'indexed')

    def memory(self, operand):
        """The bytes of an operand in memory. Its address and index are valued at once."""
        address = value(operand.address, self.names, self.location)
        index = None
        if operand.index is not None:
            index = value(operand.index, self.names, self.location) - SCRATCHPAD
            need(0 <= index <= 0xFF, 'bad operand')
        if operand.prefix != 'V@':
            address = address - SCRATCHPAD & 0xFFFF
        return operand_bytes(operand.prefix[0] == 'V', operand.prefix[-1] == '*', address, index)

    def finish(self):
        """The second checks of all lines, and the program."""
        image = {}
        entry = None
        for number, place, items in self.lines:
            try:
                values = [self.valued(item, place) if isinstance(item, Open) else item for item in items]
                parts = [encoded(item, held) for item, held in zip(items, values)]
            except Fault as fault:
                raise Refused(number, fault) from None
            for byte in b''.join(parts):
                if place in image:
                    raise Refused(number, 'overlap')
                image[place] = byte
                place += 1
            if isinstance(items[0], Open) and items[0].kind == 'entry':
                entry = values[0]
        return Program(image, entry, self.names)

    def valued(self, item, place):
        """An open value; the target of BR and BS stands in the GROM of their line."""
        number = value(item.text, self.names, place)
        if item.kind == 'branch':
            need(number & 0xE000 == place & 0xE000, 'other grom')
        return number


def encoded(item, held):
    """The bytes of an item with its value, whose range is checked."""
    if not isinstance(item, Open):
        return held
    if item.kind == 'byte':
        need(held <= 0xFF or held >= 0xFF80, 'bad operand')
        return bytes([held & 0xFF])
    if item.kind == 'index':
        need(SCRATCHPAD <= held <= SCRATCHPAD + 0xFF, 'bad operand')
        return bytes([held - SCRATCHPAD])
    if item.kind == 'register':
        need(held <= 0xFF, 'bad operand')
        return bytes([held])
    if item.kind == 'branch':
        return bytes([item.code | held >> 8 & 0x1F, held & 0xFF])
    return b'' if item.kind == 'entry' else held.to_bytes(2, 'big')


def assemble(text):
    """The program of a source, or Refused."""
    assembler = Assembler()
    for number, line in enumerate(source_lines(text), 1):
        if assembler.ended:
            break
        try:
            assembler.line(line)
        except Fault as fault:
            raise Refused(number, fault) from None
    return assembler.finish()


def image_bytes(image):
    """The bytes from the lowest to the highest written address; those between that are not written are 0."""
    if not image:
        return b''
    low = min(image)
    found = bytearray(max(image) + 1 - low)
    for place, byte in image.items():
        found[place - low] = byte
    return bytes(found)
