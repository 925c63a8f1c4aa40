"""The steps of a run of a GPL program, and what each of them changed, as `gsteps` of ti_debug writes them.

What the steps change must lead to the state that the program shows after the last of them, and each line must fit the
lines before it: else there is no run.
"""
import re
import typing

from lib.dump import dump
from stepping.places import (CELLS, CELLS_END, DATA_STACK, END, REGISTERS, RETURN_STACK, STATUS, VIDEO,
                             changes_of)
from stepping.reports import counted, no_report, not_led_to, only, replayed, reported

BYTES = r'[0-9A-F]{2}(?:\*[0-9]{1,5})?'
CHANGE = rf'(?:V?>[0-9A-F]{{4}}|W[0-7])={BYTES}(?:,{BYTES})*'
BEFORE = 'S([0-9A-F]{2}) D([0-9A-F]{2}) R([0-9A-F]{2})'
STEP = re.compile(rf' *([0-9]+) >([0-9A-F]{{4}}) {BEFORE} ([^=\n]*?)((?: {CHANGE})*)')
STATE = re.compile(rf'^gpl >([0-9A-F]{{4}}) {BEFORE}$', re.M)
END_LINE = re.compile(r'^(exit|stop ([1-5])) at >([0-9A-F]{4})$', re.M)
# the cells that a line shows before its step: the status, and the pointers of both stacks
SHOWN_BEFORE = (STATUS, DATA_STACK, RETURN_STACK)
REASONS = {
    1: 'the code byte there is no instruction’s',
    2: 'a pointer, an index or the bytes of an operand are not visible: they are outside >8300 to >83C1, or a pointer '
       'begins at >837C',
    3: 'the bytes at the top of a stack are not visible',
    4: 'a MOVE of more than 16,384 bytes',
    5: 'a MOVE past the last register of the video processor',
}


class Step(typing.NamedTuple):
    """A step: its number, the address of its instruction, the status and the stack pointers before it, the instruction,
    and the changes."""
    number: int
    address: int
    before: tuple
    text: str
    changes: list


class Run(typing.NamedTuple):
    """A run: its steps, the address after the last, the state before the first as changes of a memory of 0, how it
    ended as a sentence, whether the program stopped with an error, why steps are left out, if any are, the reason of
    its end: 0 for EXIT, and None if it has not ended; how many steps come before these, and their calls with those
    before, if they were taken."""
    steps: list
    last: int
    first: list
    end: str
    stopped: bool
    cut: str
    reason: typing.Optional[int]
    begin: int = 0
    calls: typing.Any = None


def first_state():
    """The state that each GPL program begins with: the pointers of both stacks."""
    return [(DATA_STACK, '9F7E', 1)]


def step_of(line):
    """The step that a line shows, or None."""
    found = STEP.fullmatch(line)
    if not found:
        return None
    number, address, *before, text, parts = found.groups()
    changes = [change for part in parts.split() for change in changes_of(part)]
    return Step(int(number), int(address, 16), tuple(int(byte, 16) for byte in before), text, changes)


def is_before(step, memory):
    """Whether the cells that the line of a step shows have these values before it."""
    return step.before == tuple(memory[at] for at in SHOWN_BEFORE)


def state_shown(rest):
    """The address of the next instruction, and the memory, that the end of a report shows."""
    shown, state = dump(rest), STATE.search(rest)
    if shown is None or state is None:
        raise no_report('no state')
    memory = bytearray(END)
    memory[CELLS:CELLS_END] = shown.pad[:CELLS_END - CELLS]
    memory[VIDEO:VIDEO + len(shown.vdp)] = shown.vdp
    memory[REGISTERS:REGISTERS + 8] = shown.registers
    return int(state[1], 16), memory


def ending(report, limit):
    """How a run ended, as a sentence; and by which reason, None if it has not ended."""
    steps = report.made
    if report.cut:
        return only(steps, report.cut), None
    found = END_LINE.match(report.rest)
    if (found or STATE.match(report.rest)) is None or (not found and steps != limit):
        raise no_report('no end of a run')
    is_stopped = bool(found and found[2])
    if is_stopped != (report.status == 7):
        raise no_report(f'a run that ended with status {report.status}')
    if not found:
        return f'Cut off after {counted(steps)}, the limit.', None
    if is_stopped:
        return f'Stopped at >{found[3]} after {counted(steps)}: {REASONS[int(found[2])]}.', int(found[2])
    return f'Ended by EXIT at >{found[3]} after {counted(steps)}.', 0


def run_of(bench, debugger, source, limit, window=None):
    """The run of a GPL source that the program accepts, up to a number of steps; all of it, or what a window keeps."""
    report, first = reported(debugger, ['gsteps', str(limit)], source, step_of, window), first_state()
    steps, memory = (window.steps, window.memory) if window else replayed(first, report.steps, is_before)
    end, reason = ending(report, limit)
    rest = report.rest
    if report.cut:
        rest = bench.run('run', str(report.made), given=source).out.decode('latin-1')
    last, shown = state_shown(rest)
    if memory != shown:
        raise not_led_to()
    made = Run(list(steps), last, first, end, bool(reason), report.cut, reason)
    if not window:
        return made
    window.end(report.cut, last)
    return made._replace(first=window.first, end=window.said(end), begin=window.begin, calls=window.calls)
