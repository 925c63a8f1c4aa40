"""IF, ELSE and ENDIF: which lines are left out.

A name without a value is refused in IF: one that is misspelled would never hold, without a sign. The place of a label is
not known here.
"""
from expanding.lines import operation_of

IFS = ('IF', 'IFDEF')


def begin(source, holds):
    """Takes an IF, whose lines are left out up to ELSE or ENDIF if it does not hold."""
    source.open.append([source.number, False])
    if not holds:
        skip(source)


def other(source):
    """Takes an ELSE after lines that were not left out: those after it are."""
    note_else(source)
    skip(source)


def end(source):
    """Takes an ENDIF."""
    if not source.open:
        raise source.refused('ENDIF without IF')
    source.open.pop()


def note_else(source):
    if not source.open:
        raise source.refused('ELSE without IF')
    if source.open[-1][1]:
        raise source.refused(f'ELSE after another one, of the IF in {source.place_of(source.open[-1][0])}')
    source.open[-1][1] = True


def skip(source):
    """Leaves lines out up to the ELSE or the ENDIF of the last IF."""
    depth = 0
    for text in source:
        operation = operation_of(text)
        if operation in IFS:
            depth += 1
        elif operation == 'ENDIF':
            if not depth:
                return end(source)
            depth -= 1
        elif operation == 'ELSE' and not depth:
            return note_else(source)
    raise is_open(source)


def is_open(source):
    """The refusal of lines that end before the ENDIF of their last IF."""
    return source.refused('this IF has no ENDIF', source.open[-1][0])
