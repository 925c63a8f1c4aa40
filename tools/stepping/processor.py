"""The instructions of a run of object text, and what each of them changed, as `steps` of ti_debug writes them.

The run begins with the linked memory, as `link` lists it, and with 0 everywhere else. What the instructions change must
lead to the state that the program shows after the last of them: else there is no run.
"""
import re
import typing

from lib.dump import dump, expansion, words
from stepping.places import LATCHES, REGISTERS, VIDEO, changes_of
from stepping.reports import counted, no_report, not_led_to, only, replayed, reported

STEP = re.compile(r' *([0-9]+) >([0-9A-F]{4}) WP([0-9A-F]{4}) ST([0-9A-F]{4}) ([^=\n]*?)((?: \S+=\S+)*)')
PROCESSOR = re.compile(r'^count ([0-9]+) PC >([0-9A-F]{4}) WP >([0-9A-F]{4}) ST >([0-9A-F]{4})$', re.M)
GROM = re.compile(r'^grom >([0-9A-F]{4})$', re.M)
NAME = re.compile(r'^([A-Z][A-Z0-9]*) +>([0-9A-F]{4})$', re.M)
END_LINE = re.compile(r'end (limit|self jump|refused|port)(?: (>[0-9A-F]{4}))?$', re.M)
ENDS = {'self jump': 'Ended at JMP $', 'refused': 'Stopped at a word that is not executed, at',
        'port': 'Stopped at a word access to the port'}


class State(typing.NamedTuple):
    """The registers of the processor itself."""
    pc: int
    wp: int
    st: int


class Step(typing.NamedTuple):
    """An instruction: its number, the registers of the processor before it, its text, and the changes."""
    number: int
    before: State
    text: str
    changes: list


class Run(typing.NamedTuple):
    """A run: its steps, the registers of the processor after the last, the memory before the first as changes of a
    memory of 0, the names of the linked memory, how it ended as a sentence, whether with an error, why steps are left
    out, if any are; how many steps come before these, and their calls with those before, if they were taken."""
    steps: list
    last: State
    first: list
    names: list
    end: str
    stopped: bool
    cut: str
    begin: int = 0
    calls: typing.Any = None


def changes_in(part, wp):
    """The changes that one part of a line shows: of a register of the workspace, of a latch of a port, or of bytes."""
    name, _, value = part.partition('=')
    if name[0] == 'R':
        return [(wp + 2 * int(name[1:]), value, 1)]
    if name in LATCHES:
        at, size = LATCHES[name]
        if name == 'VH':
            return [(at, '0000' if value == '-' else '01' + value, 1)]
        return [(at, value.rjust(2 * size, '0'), 1)]
    return changes_of(part)


def step_of(line):
    """The step that a line shows, or None."""
    found = STEP.fullmatch(line)
    if not found:
        return None
    number, *before, text, parts = found.groups()
    state = State(*(int(digits, 16) for digits in before))
    changes = [change for part in parts.split() for change in changes_in(part, state.wp)]
    return Step(int(number), state, text, changes)


def first_memory(listed):
    """The words of linked memory as changes, neighbours together."""
    made = []
    for at, word in sorted(words(listed).items()):
        if made and made[-1][0] + len(made[-1][1]) // 2 == at:
            made[-1] = (made[-1][0], made[-1][1] + f'{word:04X}', 1)
        else:
            made.append((at, f'{word:04X}', 1))
    return made


def state_shown(rest, steps, memory):
    """The registers of the processor that the end of a report shows. It must be one of so many instructions, and the
    memory that it shows the one that is given."""
    shown, registers, grom, both = dump(rest), PROCESSOR.search(rest), GROM.search(rest), expansion(rest)
    if None in (shown, registers, grom, both):
        raise no_report('no state')
    low, high = both
    latch, count = LATCHES['GA'][0], int(registers[1])
    if (count != steps or memory[0x8300:0x8400] != shown.pad or memory[VIDEO:VIDEO + len(shown.vdp)] != shown.vdp
            or memory[REGISTERS:REGISTERS + 8] != shown.registers or memory[0x2000:0x4000] != low
            or memory[0xA000:0x10000] != high or memory[latch:latch + 2].hex().upper() != grom[1]):
        raise not_led_to()
    return State(*(int(digits, 16) for digits in registers.groups()[1:]))


def ending(report, limit):
    """How a run ended, as a sentence; and whether with an error."""
    steps = report.made
    made = counted(steps, 'instruction')
    if report.cut:
        return only(steps, report.cut, 'instruction'), False
    found = END_LINE.match(report.rest)
    if not found or (found[1] == 'limit' and steps != limit):
        raise no_report('no end of a run')
    how, address = found.groups()
    is_stopped = how in ('refused', 'port')
    if is_stopped != (report.status == 7):
        raise no_report(f'a run that ended with status {report.status}')
    if how == 'limit':
        return f'Cut off after {made}, the limit.', False
    return ' '.join(filter(None, [ENDS[how], address, f'after {made}.'])), is_stopped


def bytes_in(listed):
    """The bytes of linked memory by their addresses."""
    return {at + offset: byte for at, word in words(listed).items()
            for offset, byte in enumerate(word.to_bytes(2, 'big'))}


def names_in(listed):
    """The names of linked memory with their values."""
    return [(name, int(value, 16)) for name, value in NAME.findall(listed)]


def run_of(debugger, objects, listed, limit, window=None):
    """The run of object text that the program accepts and whose linked memory is listed, up to a number of
    instructions; all of it, or what a window keeps."""
    report = reported(debugger, ['steps', str(limit)], objects, step_of, window)
    first = first_memory(listed)
    steps, memory = (window.steps, window.memory) if window else replayed(first, report.steps)
    end, stopped = ending(report, limit)
    shown = report.rest
    if report.cut:
        # the same instructions once more, for the state after them
        again = debugger.run('steps', str(report.made), given=objects).out.decode('latin-1')
        shown = again[again.rfind('\nend ') + 1:]
    last = state_shown(shown, report.made, memory)
    made = Run(list(steps), last, first, names_in(listed), end, stopped, report.cut)
    if not window:
        return made
    window.end(report.cut, *last)
    return made._replace(first=window.first, end=window.said(end), begin=window.begin, calls=window.calls)
