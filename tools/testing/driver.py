"""The source that a case is run from: the lines under test as they are, and lines in a GROM without bytes that set the
state and begin the routine. They have no names, so none can clash with those of the source.

Video memory after the screen stays 0, since a fill of 16 KiB takes longer than most routines. A source with bytes in
each GROM leaves no room for these lines, and is refused.
"""
import re
import typing

from lib.command import Stopped
from stepping.places import CELLS, CELLS_END, END, REGISTERS, VIDEO, make
from stepping.run import first_state
from testing.lines import Wrong
from testing.places import Bytes
from testing.tested import GROM
from testing.tests import FILL

SCREEN = 768
# the cells that are not filled: the pointers of both stacks
POINTERS = (0x8372, 0x8373)
# a byte that goes to the screen if it is stored, with its row and its column
CHARACTER, ROW, COLUMN = 0x837D, 0x837E, 0x837F
# a stretch of one byte that is filled and not copied, or bytes between such stretches
STRETCH = re.compile(rb'(.)\1{15,}|(?:(?!(.)\2{15}).)+', re.S)
# bytes that stay as they are between two others are copied with them, if they are no more than these
GAP = 8
CALL_SIZE = 3


class Driver(typing.NamedTuple):
    """A source that runs a case: its text, the GROM of its own lines, how many steps set the state, and how many bytes
    follow its CALL, if it has one."""
    text: bytes
    grom: int
    setting: int
    after_call: typing.Optional[int]

    def is_own(self, address):
        """Whether an address is in its GROM."""
        return address // GROM * GROM == self.grom


def is_register(place):
    """Whether a place is one of registers."""
    return isinstance(place, Bytes) and place.at >= REGISTERS


def wanted(case, fill):
    """The memory before a case."""
    memory = bytearray(END)
    fill = next((it for it in (case.fill, fill) if it is not None), FILL)
    memory[CELLS:CELLS_END] = bytes([fill]) * (CELLS_END - CELLS)
    memory[VIDEO:VIDEO + SCREEN] = bytes([fill]) * SCREEN
    first = bytearray(END)
    make(first, first_state())
    for at in POINTERS:
        memory[at] = first[at]
    # a row of the screen lies where the registers say, so these come first
    for given in sorted(case.given, key=lambda it: not is_register(it.place)):
        given.put(memory)
    return memory


def runs_of(differing):
    """Addresses in order as runs, each from its first up to after its last."""
    runs = []
    for at in differing:
        if runs and at - runs[-1][1] <= GAP:
            runs[-1][1] = at + 1
        else:
            runs.append([at, at + 1])
    return runs


class Writer:
    """Writes the lines of a driver: bytes first, and then the instructions that copy them."""

    def __init__(self, grom):
        self.grom, self.data, self.code = grom, b'', []

    def copy(self, target, data):
        """Copies bytes of the GROM."""
        self.code.append(f'       MOVE {len(data)},{target},G@>{self.grom + len(self.data):04X}')
        self.data += data

    def fill(self, at, byte, count):
        """Fills video memory with a byte: MOVE copies upward, so it repeats the first one."""
        self.code.append(f'       ST   V@>{at:04X},>{byte:02X}')
        if count > 1:
            self.code.append(f'       MOVE {count - 1},V@>{at + 1:04X},V@>{at:04X}')

    def video(self, have, memory):
        """Makes the video memory as it is wanted, from what it has."""
        for begin, end in runs_of([at for at, pair in enumerate(zip(have, memory)) if pair[0] != pair[1]]):
            for piece in STRETCH.finditer(memory[begin:end]):
                if piece[1]:
                    self.fill(begin + piece.start(), piece[1][0], len(piece[0]))
                else:
                    self.copy(f'V@>{begin + piece.start():04X}', piece[0])

    def state(self, memory):
        """Makes the whole state. The cells come first, as their MOVE stores a character on the screen; no line after
        it changes a cell."""
        self.copy(f'@>{CELLS:04X}', bytes(memory[CELLS:CELLS_END]))
        video, have = bytes(memory[VIDEO:REGISTERS]), bytearray(REGISTERS - VIDEO)
        have[(32 * memory[ROW] + memory[COLUMN]) % len(have)] = memory[CHARACTER]
        if have[:SCREEN] != video[:SCREEN]:
            self.code.append(f'       ALL  >{video[0]:02X}')
            have[:SCREEN] = video[:1] * SCREEN
        self.video(have, video)
        if any(memory[REGISTERS:REGISTERS + 8]):
            self.copy('R@0', bytes(memory[REGISTERS:REGISTERS + 8]))

    def text(self, begin):
        """All lines, of which the last ones begin the routine."""
        rows = [f'       GROM >{self.grom:04X}', *byte_lines(self.data), *self.code, *begin,
                f'       END  >{self.grom + len(self.data):04X}']
        return ''.join(f'{row}\n' for row in rows).encode('latin-1')


def byte_lines(data):
    """Bytes as lines."""
    for at in range(0, len(data), 16):
        yield '       BYTE ' + ','.join(f'>{byte:02X}' for byte in data[at:at + 16])


def begin_of(tested, routine):
    """The lines that begin a routine."""
    label = next(it for it in (*tested.source.local_names, routine.label)
                 if tested.source.spelled(it).upper() == routine.label.upper())
    if not routine.is_called:
        return [f'       B    {label}']
    return [f'       CALL {label}', *byte_lines(routine.after_call), '       EXIT']


def driver_of(tested, case, memory):
    """The source that runs a case from a state."""
    grom = tested.free_grom()
    if grom is None:
        raise Stopped(f'{case.title}: no test can start, as each GROM has bytes of the source')
    writer = Writer(grom)
    writer.state(memory)
    begin = begin_of(tested, case.routine)
    text = writer.text(begin)
    after_call = len(case.routine.after_call) if case.routine.is_called else None
    if len(writer.data) + 16 * (len(writer.code) + len(begin)) > GROM:
        raise Wrong(case.line, f'{len(writer.data):,} bytes of what is given are copied one by one, and a GROM has no '
                    'room for them; stretches of one byte need none')
    return Driver(tested.text_before_end() + text, grom, len(writer.code), after_call)
