"""Lines that say again what the line before has done, that run into data, and that nothing reaches."""
from expanding.lines import operation_of
from lib.other_operations import OF_CODE
from warning.condition import BY_RESULT, ENDING, Cond, plain, table
from warning.stops import PLACE, STATUS, is_of_words


def pairs(code):
    """The statements with the next one, which begins right after."""
    for statement in code.in_order():
        if statement.after in code.statements:
            yield statement, code.statements[statement.after]


def entered(code):
    """The addresses that a way may come to from elsewhere."""
    targets = {it.target for it in code.statements.values()}
    cases = [it for it in code.statements.values() if plain(it.operation) == 'CASE']
    tables = {address for case in cases for address in table(code, case)}
    return targets | tables | {code.entry} | {name.value for name in code.names} | code.mentioned()


def is_same_after(operand, width):
    """Whether an operand is the same place, with the same bytes, after a statement has stored there and set the status.
    A store to a cell may change the index or the pointer that leads to it."""
    found = PLACE.fullmatch(operand)
    if not found or found[1]:
        return bool(found)
    return found[2] == '@' and not found[4] and not STATUS - width < int(found[3], 16) <= STATUS


def again(code):
    """CZ of what the statement before has set COND by."""
    others = entered(code)
    for first, second in pairs(code):
        width = 2 if is_of_words(second.operation) else 1
        if (plain(second.operation) == 'CZ' and plain(first.operation) in BY_RESULT
                and is_of_words(first.operation) == is_of_words(second.operation)
                and first.operands[0] == second.operands[0] and second.address not in others
                and is_same_after(second.operands[0], width)):
            yield second.number, 'again', f'{first.operation} has set COND as {second.operation} does'


def goes_on(statement, before):
    """Whether a statement goes on at the next address, as what is known of COND before it says."""
    if statement.operation in ('BR', 'BS'):
        return before != (Cond.ZERO if statement.operation == 'BR' else Cond.ONE)
    return statement.operation not in (*ENDING, 'CALL') and plain(statement.operation) != 'CASE'


def is_data(line, address):
    """Whether a line certainly places data at an address: no operation that is left out, written as bytes."""
    is_bytes = operation_of(line.text.decode('latin-1')) == 'BYTE'
    return not is_bytes or line.data[address - line.address] not in OF_CODE


def into_data(code, found):
    """Statements that are reached and run into data."""
    for statement in code.in_order():
        before, line = found.get(statement.address), code.line_of_data(statement.after)
        if before and line and goes_on(statement, before) and is_data(line, statement.after):
            yield statement.number, 'data', f'{statement.operation} runs into the data of line {line.number}'


def unreached(code):
    """Statements that no way leads to: the first of each run."""
    others = entered(code)
    for first, second in pairs(code):
        if first.operation in ENDING and second.address not in others:
            text = f'nothing reaches this line: {first.operation} before it goes on elsewhere'
            yield second.number, 'unreached', text
