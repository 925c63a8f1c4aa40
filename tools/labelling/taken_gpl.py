"""What a line of GPL does to the return address of the subroutine that it stands in.

FETCH takes a byte after the call. Each other store to the stack of return addresses may move the address: one to its
cells or its pointer, and one to a place that the line does not say, which has an index, a pointer or no certain length.

PUSH stores to the stack of data, and may move an address if the program lets that stack begin where the other one is. A
program may also let the stack of return addresses begin at another cell. Both are read from stores of a number to the
pointers; a program that sets them otherwise is taken to set them back.
"""
import re
import typing

CELLS = 0x8300
DATA, POINTER = 0x72, 0x73          # the offsets of the pointers of both stacks
FIRST_DATA, FIRST = 0xA0, 0x80      # the offsets at which the console lets them begin
STORING = 'ABS NEG INV CLR INC DEC INCT DECT FETCH ADD SUB AND OR XOR ST EX SRA SLL SRL SRC'.split()
WIDTHS = {**dict.fromkeys(STORING, 1), 'MUL': 2, 'DIV': 2}
WIDTHS.update({f'D{name}': 2 * width for name, width in WIDTHS.items() if name != 'FETCH'})


def stores(line):
    """The operands that a line stores to, each with its number of bytes, or None if that is not known. An operation
    that is left out has no operands here."""
    if not line.text:
        return []
    operands = line.text.partition(' ')[2].split(',')
    if line.operation == 'MOVE':
        length = operands[0]
        return [(operands[1], int(length[1:], 16) if length.startswith('>') else None)]
    if line.operation not in WIDTHS:
        return []
    return [(it, WIDTHS[line.operation]) for it in operands[:2 if line.operation in ('EX', 'DEX') else 1]]


class Stacks(typing.NamedTuple):
    """The lowest offset of a return address in a program, and whether PUSH stores only above all of them."""
    first: int = FIRST
    is_push_sure: bool = True

    def after(self, line):
        """The stacks of a program that has this line too."""
        found = re.fullmatch(r'D?ST @>(837[23]),>([0-9A-F]+)', line.text)
        if not found:
            return self
        offset = int(found[1], 16) - CELLS
        set_ = dict(zip(range(offset, offset + 2), bytes.fromhex(found[2])))
        first = min(self.first, set_.get(POINTER, FIRST) + 2)
        return Stacks(first, self.is_push_sure and set_.get(DATA, FIRST_DATA) + 1 >= FIRST_DATA)


def moves(operand, width, first_address):
    """Why a store may move a return address, or nothing."""
    if operand.startswith(('V', 'R')) or width == 0:
        return ''
    found = re.fullmatch('@>([0-9A-F]{4})', operand)
    if not found:
        return 'it stores by an index or a pointer'
    first = int(found[1], 16) - CELLS
    if width is None:
        return 'it moves a number of bytes that is not certain'
    last = first + width - 1
    return 'it stores to the stack of return addresses' if first <= POINTER <= last or last >= first_address else ''


def follow(walk, at, line, state):
    """The ways on from a line."""
    after, operation = at + line.length, line.operation
    if operation in ('RTN', 'RTNC'):
        walk.returns.update(state.values())
        return []
    if operation == 'EXIT':
        return []
    if operation == 'CALL':
        count = walk.nested(at, line)
        return [] if count is None else [(after + count, state)]
    for operand, width in stores(line):
        why = moves(operand, width, walk.taken.stacks.first)
        if why:
            return walk.doubt(f'{why} at >{at:04X}')
    if operation == 'PUSH' and not walk.taken.stacks.is_push_sure:
        return walk.doubt(f'PUSH at >{at:04X} may store to the stack of return addresses')
    if operation == 'FETCH':
        state = {register: count + 1 for register, count in state.items()}
    ways = [(it.address, dict(state)) for it in line.leads]
    return ways if operation == 'B' else [*ways, (after, state)]
