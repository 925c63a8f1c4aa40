"""What an instruction compared: it changes nothing but the status, so its operands are shown as they were."""
import re

from debugging.conditions import Wrong, condition

GPL_PAIR = re.compile(r'(D?(?:CHE?|CG[TE]|CEQ|CLOG)) ([^,]+),([^,]+)')
GPL_ONE = re.compile(r'(D?CZ) ([^,]+)')
PROCESSOR_PAIR = re.compile(r'(C|CB|COC|CZC|CI) ([^,]+),([^,]+)')
MOVING = re.compile(r'\*(R[0-9]+)\+')


def operands_of(text, is_processor):
    """The operands of a comparison and the bytes of each; None if it is none. An operand that moves a register which
    the other one uses is read at another moment, and is not shown."""
    found = PROCESSOR_PAIR.fullmatch(text) if is_processor else GPL_PAIR.fullmatch(text) or GPL_ONE.fullmatch(text)
    if not found:
        return None
    operation, *operands = found.groups()
    moved = MOVING.fullmatch(operands[0])
    if moved and re.search(moved[1] + '(?![0-9])', operands[1]):
        return None
    is_of_bytes = operation == 'CB' if is_processor else operation[0] != 'D'
    return operands, 1 if is_of_bytes else 2


def compared(text, state, names):
    """The values that an instruction compares in a state, each with its bytes; none if it is no comparison."""
    found = operands_of(text, names.is_processor)
    if not found:
        return []
    operands, size = found
    try:
        return [(condition(operand if operand[0] == '>' else f'{operand.rstrip("+")}:{size}', names)(state), size)
                for operand in operands]
    except Wrong:
        return []
