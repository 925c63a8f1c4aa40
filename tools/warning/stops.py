"""Statements at which each run stops that comes to them (docs/GPL_STEP.md, "Why it stops")."""
import re

from lib.languages import GPL, OPERATIONS

CELLS, VISIBLE, STATUS = 0x8300, 0xC2, 0x837C
MOST_MOVED, REGISTERS = 0x4000, 8
PLACE = re.compile(r'([VG]?)([@*])>([0-9A-F]{4})(?:\(@>([0-9A-F]{4})\))?')


def is_visible(address, width):
    """Whether a program sees so many bytes from an address on."""
    return (address - CELLS) % 0x10000 + width <= VISIBLE


def unseen(operand, width):
    """The part of an operand that is not visible, whatever the cells hold; None if there is none."""
    found = PLACE.fullmatch(operand)
    if not found:
        return None
    kind, mark, base, index = found[1], found[2], int(found[3], 16), found[4]
    if mark == '*' and not is_visible(base, 2):
        return f'the pointer at >{base:04X} is not visible'
    if mark == '*' and base == STATUS:
        return f'a pointer may not begin at >{STATUS:04X}'
    if index and not is_visible(int(index, 16), 2):
        return f'the index at >{index} is not visible'
    if kind:
        return None
    if mark == '*' or index:
        return f'{width:,} bytes are never visible' if width > VISIBLE else None
    if not is_visible(base, width):
        return f'{width:,} bytes at >{base:04X} are not visible' if width > 1 else f'>{base:04X} is not visible'
    return None


def is_of_words(operation):
    return operation[0] == 'D' and operation[1:] in OPERATIONS[GPL]


def count_of(move):
    """How many bytes a MOVE moves, if it says that itself; else None."""
    length = move.operands[0]
    return int(length[1:], 16) if length.startswith('>') else None


def widths(statement):
    """How many bytes each operand has, but for those of MOVE."""
    width = 2 if is_of_words(statement.operation) else 1
    twice = statement.operation[width - 1:] in ('MUL', 'DIV')
    return (2 * width if twice else width, width)


def reason_of_move(statement):
    """Why a MOVE stops, as its checks are made."""
    length, target, source = statement.operands
    count = count_of(statement) or 0
    if unseen(length, 2):
        return 2, unseen(length, 2)
    if count > MOST_MOVED:
        return 4, f'{count:,} bytes are more than {MOST_MOVED:,}'
    if unseen(target, count):
        return 2, unseen(target, count)
    if target.startswith('R@') and int(target[3:], 16) + count > REGISTERS:
        return 5, f'the last register of the video processor is {REGISTERS - 1}'
    return (2, unseen(source, count)) if unseen(source, count) else None


def reason_of(statement):
    """The reason by which a run stops at a statement, and what it is about; None if that is not certain."""
    if statement.operation == 'MOVE':
        return reason_of_move(statement)
    found = [unseen(operand, width) for operand, width in zip(statement.operands, widths(statement))]
    return next(((2, what) for what in found if what), None)


def warnings(code):
    """The warnings of such statements: each the number of a line, a name and a text."""
    for statement in code.in_order():
        if found := reason_of(statement):
            yield statement.number, 'stop', 'a run stops here by reason {}: {}'.format(*found)
