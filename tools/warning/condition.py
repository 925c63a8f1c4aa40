"""What is known of COND before each statement (docs/GPL_STEP.md), on all ways that lead there."""
import enum

from warning.stops import MOST_MOVED, PLACE, STATUS, count_of, is_of_words, widths


class Cond(enum.Flag):
    """OPEN: as a caller left it. ZERO, ONE: it has this value. SET: an operation has set it."""
    OPEN = enum.auto()
    ZERO = enum.auto()
    ONE = enum.auto()
    SET = enum.auto()


NONE = Cond(0)
# the operations after which the status is that of their result
BY_RESULT = frozenset('ADD SUB INC DEC INCT DECT NEG ABS'.split())
COMPARISONS = frozenset('CH CHE CGT CGE CEQ CLOG CZ'.split())
BITS = frozenset('H GT CARRY OVF'.split())
# the comparisons that hold of a place and itself
REFLEXIVE = ('CHE', 'CGE', 'CEQ')
# the operations that store nothing in a cell that they name first
READING = COMPARISONS | {'CASE', 'PUSH'}
ENDING = ('B', 'RTN', 'RTNC', 'EXIT')


def plain(operation):
    """An operation without the D of words."""
    return operation[1:] if is_of_words(operation) else operation


def may_store_status(statement):
    """Whether a statement may store over the status: at its cell, or at a place that it does not say."""
    name = plain(statement.operation)
    if name in READING:
        return False
    if name == 'MOVE':
        count = count_of(statement)
        return may_be_status(statement.operands[1], MOST_MOVED if count is None else count)
    stored = zip(statement.operands[:2 if name == 'EX' else 1], widths(statement))
    return any(may_be_status(operand, width) for operand, width in stored)


def may_be_status(operand, width):
    """Whether the status may be among the bytes of an operand."""
    found = PLACE.fullmatch(operand)
    if not found or found[1]:
        return False
    return found[2] == '*' or bool(found[4]) or int(found[3], 16) <= STATUS < int(found[3], 16) + width


def after(statement, before):
    """What is known of COND after a statement that goes on at the next address."""
    name = plain(statement.operation)
    if name in REFLEXIVE and len(set(statement.operands)) == 1:
        return Cond.ONE
    if name in BY_RESULT | COMPARISONS | BITS or may_store_status(statement):
        return Cond.SET
    return before


def ways(code, statement, before):
    """Where a statement goes on, each with what is known of COND there."""
    operation = statement.operation
    if operation in ('BR', 'BS'):
        jumps, falls = (Cond.ONE, Cond.ZERO) if operation == 'BR' else (Cond.ZERO, Cond.ONE)
        if before != jumps:
            yield statement.target, Cond.ZERO
        if before != falls:
            yield statement.after, Cond.ZERO
    elif operation == 'B':
        yield statement.target, before
    elif operation == 'CALL':
        yield statement.target, Cond.OPEN
        yield statement.after, Cond.SET
    elif plain(operation) == 'CASE':
        for address in table(code, statement):
            yield address, Cond.ZERO
    elif operation not in ENDING:
        yield statement.after, after(statement, before)


def table(code, case):
    """The addresses of the branches after a CASE, and the one after them."""
    address = case.after
    while address in code.statements and code.statements[address].operation in ('BR', 'BS'):
        yield address
        address = code.statements[address].after
    yield address


def begins(code):
    """Where a way may begin, with what is known of COND there: at the entry; at a label that no statement names; at an
    address that is mentioned otherwise; and after data, where a call may come back."""
    targets = {it.target for it in code.statements.values()}
    yield code.entry, Cond.ZERO
    for name in code.names:
        if name.value not in targets:
            yield name.value, Cond.OPEN
    for address in code.mentioned():
        yield address, Cond.OPEN | Cond.SET
    for address in code.statements:
        if code.line_of_data(address - 1):
            yield address, Cond.SET


def known(code):
    """What is known of COND before each statement that is reached, by its address."""
    found, waiting = {}, list(begins(code))
    while waiting:
        address, more = waiting.pop()
        before = found.get(address, NONE)
        if address in code.statements and before | more != before:
            found[address] = before | more
            waiting += ways(code, code.statements[address], found[address])
    return found


def warnings(code, found):
    """The warnings of branches by what is known of COND before them."""
    for statement in code.in_order():
        operation, before = statement.operation, found.get(statement.address)
        if operation in ('BR', 'BS') and before:
            never = Cond.ONE if operation == 'BR' else Cond.ZERO
            if before == never:
                value = 1 if operation == 'BR' else 0
                yield statement.number, 'cond', f'{operation} never branches: COND is {value} here'
            elif before == Cond.OPEN:
                yield statement.number, 'cond', 'COND is not known here: nothing sets it before'
