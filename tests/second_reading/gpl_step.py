"""The GPL step of the GPL Programmer's Guide over what a GPL program sees: the cells 8300 to 83C1, VDP memory and
registers, and the address of the next code byte. Which status bits an operation sets, the reasons of a stop, and the
screen's byte of a store at 837D are the profile's.
"""
import gpl_values
from gpl_decoding import decoded, next_in_grom

VISIBLE = 0xC2
VDP_SIZE = 0x4000
DATA_STACK, CALL_STACK, RANDOM, STATUS, BUFFER, ROW, COLUMN, SEED = 0x72, 0x73, 0x78, 0x7C, 0x7D, 0x7E, 0x7F, 0xC0
COND, OVF = 0x20, 0x08
EXIT, CODE, CELL, STACK, LENGTH, REGISTER = range(6)
LONGEST_MOVE = 16384
ALL_BYTES = 768


class Stop(Exception):
    """A step that stops: its reason. Nothing was changed."""

    def __init__(self, reason):
        super().__init__(reason)
        self.reason = reason


class Console:
    """A GPL state, and of the step just made how many bytes it has copied and what it has stored to, with the bytes
    that stood there."""

    def __init__(self, image, entry):
        self.image = image
        self.pc = entry
        self.cells = bytearray(VISIBLE)
        self.cells[DATA_STACK], self.cells[CALL_STACK] = 0x9F, 0x7E
        self.vdp = bytearray(VDP_SIZE)
        self.registers = bytearray(8)
        self.instructions = {}
        self.old_cells, self.old_vdp, self.old_registers = {}, {}, {}
        self.buffered = False
        self.copied = 0

    def instruction(self):
        found = self.instructions.get(self.pc)
        if found is None:
            found = self.instructions[self.pc] = decoded(self.image, self.pc)
        return found

    def step(self):
        """One step, or Stop. As its last effect a store at 837D also goes to the screen, at 32 times the byte of 837E
        plus the byte of 837F."""
        instruction = self.instruction()
        if instruction is None:
            raise Stop(CODE)
        self.old_cells.clear()
        self.old_vdp.clear()
        self.old_registers.clear()
        self.buffered = False
        self.copied = 0
        self.pc = ROWS[instruction.name](self, instruction)
        if self.buffered:
            self.put_vdp(32 * self.cells[ROW] + self.cells[COLUMN], self.cells[BUFFER])

    def cell_word(self, offset):
        return self.cells[offset] << 8 | self.cells[offset + 1]

    def place(self, operand, width):
        """The place of an operand: whether it is in VDP memory, and its address there or its offset. The pointer is
        checked first, then the index, then the range."""
        vdp, indirect, address, index = operand
        if indirect:
            if address + 2 > VISIBLE or address == STATUS:
                raise Stop(CELL)
            address = self.cell_word(address)
        if index is not None:
            if index + 2 > VISIBLE:
                raise Stop(CELL)
            address = address + self.cell_word(index) & 0xFFFF
        if not vdp and address + width > VISIBLE:
            raise Stop(CELL)
        return vdp, address

    def load(self, place, width):
        """The bytes at a place as a number, high byte first; VDP addresses wrap byte by byte."""
        vdp, address = place
        found = 0
        for offset in range(address, address + width):
            found = found << 8 | (self.vdp[offset & 0x3FFF] if vdp else self.cells[offset])
        return found

    def store(self, place, width, number):
        vdp, address = place
        for byte in number.to_bytes(width, 'big'):
            if vdp:
                self.put_vdp(address, byte)
            else:
                self.put_cell(address, byte)
            address += 1

    def put_cell(self, offset, byte):
        self.old_cells.setdefault(offset, self.cells[offset])
        self.cells[offset] = byte
        if offset == BUFFER:
            self.buffered = True

    def put_vdp(self, address, byte):
        address &= 0x3FFF
        self.old_vdp.setdefault(address, self.vdp[address])
        self.vdp[address] = byte

    def set_status(self, bit, holds):
        """Sets or clears a status bit in the byte that 837C then holds."""
        self.put_cell(STATUS, self.cells[STATUS] & ~bit | (bit if holds else 0))

    def stack_word(self, offset):
        """The range of a word of the stack."""
        if offset + 2 > VISIBLE:
            raise Stop(STACK)
        return False, offset

    def source(self, instruction, width):
        """The value of the source: the second operand's, or the immediate one."""
        part = instruction.parts[1]
        return part if instruction.form == 'immediate' else self.load(self.place(part, width), width)


def operate(console, instruction):
    """An operation that stores its result at the destination, and then the status where it sets one."""
    width = 1 + instruction.word
    target = console.place(instruction.parts[0], width)
    source = console.source(instruction, width) if len(instruction.parts) > 1 else 0
    result, status = gpl_values.RESULTS[instruction.name](console.load(target, width), source, width)
    console.store(target, width, result)
    if status is not None:
        console.put_cell(STATUS, status)
    return instruction.next


def compare(console, instruction):
    """COND says whether the destination compares with the source."""
    width = 1 + instruction.word
    target = console.place(instruction.parts[0], width)
    source = console.source(instruction, width) if len(instruction.parts) > 1 else 0
    console.set_status(COND, gpl_values.COMPARES[instruction.name](console.load(target, width), source, width))
    return instruction.next


def test_status(console, instruction):
    """COND says whether the status bit of that name is set."""
    console.set_status(COND, console.cells[STATUS] & gpl_values.STATUS_BITS[instruction.name])
    return instruction.next


def exchange(console, instruction):
    width = 1 + instruction.word
    target = console.place(instruction.parts[0], width)
    source = console.place(instruction.parts[1], width)
    old, new = console.load(target, width), console.load(source, width)
    console.store(target, width, new)
    console.store(source, width, old)
    return instruction.next


def multiply(console, instruction):
    """The product takes twice the width at the destination."""
    width = 1 + instruction.word
    target = console.place(instruction.parts[0], 2 * width)
    product = console.source(instruction, width) * console.load(target, width)
    console.store(target, 2 * width, product)
    return instruction.next


def divide(console, instruction):
    """The double width is divided: quotient, then remainder; OVF where the quotient does not fit."""
    width = 1 + instruction.word
    target = console.place(instruction.parts[0], 2 * width)
    source = console.source(instruction, width)
    dividend = console.load(target, 2 * width)
    fits = source != 0 and dividend // source < 1 << 8 * width
    if fits:
        console.store(target, 2 * width, dividend // source << 8 * width | dividend % source)
    console.set_status(OVF, not fits)
    return instruction.next


def leave(console, instruction):
    raise Stop(EXIT)


def go(console, instruction):
    return instruction.parts[0]


def call(console, instruction):
    """The stack grows by 2, then gets the next address."""
    offset = console.cells[CALL_STACK] + 2 & 0xFF
    place = console.stack_word(offset)
    console.put_cell(CALL_STACK, offset)
    console.store(place, 2, instruction.next)
    return instruction.parts[0]


def go_back(console, instruction):
    """RTN takes the stacked address and clears COND; RTNC keeps COND."""
    offset = console.cells[CALL_STACK]
    target = console.load(console.stack_word(offset), 2)
    console.put_cell(CALL_STACK, offset - 2 & 0xFF)
    if instruction.name == 'RTN':
        console.set_status(COND, False)
    return target


def branch(console, instruction):
    """BR jumps where COND is 0, BS where it is 1; both then clear it."""
    jumps = (console.cells[STATUS] & COND != 0) == (instruction.name == 'BS')
    console.set_status(COND, False)
    return instruction.parts[0] if jumps else instruction.next


def case(console, instruction):
    """Twice the operand is added to the next address."""
    width = 1 + instruction.word
    number = console.load(console.place(instruction.parts[0], width), width)
    console.set_status(COND, False)
    return instruction.next + 2 * number & 0xFFFF


def fetch(console, instruction):
    """The GROM byte at the stacked address, which goes on by one."""
    target = console.place(instruction.parts[0], 1)
    place = console.stack_word(console.cells[CALL_STACK])
    address = console.load(place, 2)
    console.store(place, 2, next_in_grom(address))
    console.store(target, 1, console.image[address])
    return instruction.next


def push(console, instruction):
    """The data stack grows by 1, then gets the byte."""
    byte = console.load(console.place(instruction.parts[0], 1), 1)
    offset = console.cells[DATA_STACK] + 1 & 0xFF
    if offset + 1 > VISIBLE:
        raise Stop(STACK)
    console.put_cell(DATA_STACK, offset)
    console.put_cell(offset, byte)
    return instruction.next


def random(console, instruction):
    """The seed becomes itself times 6FE5 plus 7AB9; 8378 gets its swapped bytes modulo the limit plus 1."""
    seed = console.cell_word(SEED) * 0x6FE5 + 0x7AB9 & 0xFFFF
    console.store((False, SEED), 2, seed)
    console.put_cell(RANDOM, ((seed & 0xFF) << 8 | seed >> 8) % (instruction.parts[0] + 1))
    return instruction.next


def fill(console, instruction):
    for address in range(ALL_BYTES):
        console.put_vdp(address, instruction.parts[0])
    return instruction.next


def backdrop(console, instruction):
    console.old_registers[7] = console.registers[7]
    console.registers[7] = instruction.parts[0]
    return instruction.next


def move(console, instruction):
    """Copies byte by byte upward, after the checks of length operand, length, destination and source in this order."""
    length, target, source = instruction.parts
    if not isinstance(length, int):
        length = console.load(console.place(length, 2), 2)
    if length > LONGEST_MOVE:
        raise Stop(LENGTH)
    if instruction.form == 'register':
        if target + length > 8:
            raise Stop(REGISTER)
    else:
        target = console.place(target, length)
    if instruction.form == 'memory':
        source = console.place(source, length)
    else:
        source, index = source
        if index is not None:
            if index + 2 > VISIBLE:
                raise Stop(CELL)
            source = source + console.cell_word(index) & 0xFFFF
    copy(console, instruction.form, length, target, source)
    console.copied = length
    return instruction.next


def copy(console, form, length, target, source):
    """Copies bytes one by one: each is read after those before it are stored, at addresses that wrap as their memory's
    do."""
    if form == 'memory':
        vdp, first = source
        memory, base, mask = (console.vdp, 0, 0x3FFF) if vdp else (console.cells, 0, 0xFFFF)
    else:
        memory, base, first, mask = console.image, source & 0xE000, source, 0x1FFF
    if form == 'register':
        to, old, at, wrap = console.registers, console.old_registers, target, 7
    elif target[0]:
        to, old, at, wrap = console.vdp, console.old_vdp, target[1], 0x3FFF
    else:
        to, old, at, wrap = console.cells, console.old_cells, target[1], 0xFFFF
        console.buffered = at <= BUFFER < at + length
    for number in range(length):
        place = at + number & wrap
        old.setdefault(place, to[place])
        to[place] = memory[base | first + number & mask]


ROWS = {**dict.fromkeys(gpl_values.RESULTS, operate), **dict.fromkeys(gpl_values.COMPARES, compare),
        **dict.fromkeys(gpl_values.STATUS_BITS, test_status), 'EX': exchange, 'MUL': multiply, 'DIV': divide,
        'EXIT': leave, 'B': go, 'CALL': call, 'RTN': go_back, 'RTNC': go_back, 'BR': branch, 'BS': branch, 'CASE': case,
        'FETCH': fetch, 'PUSH': push, 'RAND': random, 'ALL': fill, 'BACK': backdrop, 'MOVE': move}
