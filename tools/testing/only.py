"""What a case changed beside what it may change.

Before and after are compared, not writes, so a routine may use a cell that it restores. The status is left out, since
nearly every operation sets it.
"""
from stepping.places import CELLS
from testing.checks import Fault
from testing.places import STATUS, Row

# of both stacks the cell of the pointer, how many bytes an entry has, and the cells that they have on a console
STACKS = ((0x8373, 2, 0x8380, 0x83A0), (0x8372, 1, 0x83A0, 0x83C0))


def above_stacks(memory):
    """The cells that both stacks have left free: what was there before is not kept by a call."""
    for pointer, size, begin, end in STACKS:
        top = CELLS + memory[pointer] + size
        if begin - size <= top - size < end:
            yield from range(top, end)


def free_of(areas, memory):
    """The addresses of areas."""
    for area in areas:
        begin = area.begin(memory)
        yield from range(begin, begin + (area.room if isinstance(area, Row) else area.size))


def changed_beside(tested, areas, before, after):
    """The first byte beside areas that differs in two memories, as a fault; None if there is none. The status and what
    is above both stacks may differ."""
    if before == after:
        return None
    free = {STATUS, *above_stacks(after), *free_of(areas, after)}
    wrong = [at for at, pair in enumerate(zip(before, after)) if pair[0] != pair[1] and at not in free]
    if not wrong:
        return None
    at = wrong[0]
    more = f'; and {len(wrong) - 1:,} more bytes' if wrong[2:] else '; and another byte' if wrong[1:] else ''
    return Fault(f'changed, but not named after only: {tested.name_of(at)} was >{before[at]:02X} and is '
                 f'>{after[at]:02X}{more}', (at,))
