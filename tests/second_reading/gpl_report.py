"""The reports of GPL runs: trace lines, the end of a run, the state and the dump. What only the interpreter's own words
decide is open: the reserved cells 83C2 to 83FF but for the stop's words, and PC, ST, the registers and, after a stop,
the GROM counter. The count of instructions is fixed by a bound alone.
"""
import re

from gpl_decoding import next_in_grom
from gpl_step import CALL_STACK, DATA_STACK, EXIT, STATUS, VISIBLE, Stop

BOOT_INSTRUCTIONS = 400
STEP_INSTRUCTIONS = 440
STOP_INSTRUCTIONS = 400
COPY_INSTRUCTIONS = 64
ALL_INSTRUCTIONS = 6144
WORKSPACE = 0xE0
OPEN_GROM = 'grom open'
COUNT = re.compile(rb'count (0|[1-9][0-9]*) PC >[0-9A-F]{4} WP >83E0 ST >[0-9A-F]{4}\Z')
GROM = re.compile(rb'grom >[0-9A-F]{4}\Z')
ROW = re.compile(rb'>83([0-9A-F])0((?: [0-9A-F]{2}){16})\Z')


def changed(mark, memory, old, name):
    """How many places of a memory changed, and the first with its new byte, by the bytes that stood there before."""
    changes = [place for place, byte in old.items() if memory[place] != byte]
    if not changes:
        return ''
    first = min(changes)
    return f' {mark}{len(changes)} {name(first)}={memory[first]:02X}'


def changes(console):
    """What a step changed of cells, VDP memory and VDP registers."""
    return (changed('C', console.cells, console.old_cells, lambda offset: f'>{0x8300 + offset:04X}')
            + changed('V', console.vdp, console.old_vdp, lambda address: f'>{address:04X}')
            + changed('W', console.registers, console.old_registers, str))


def front(console, number):
    cells = console.cells
    return (f'{number:6d} >{console.pc:04X} S{cells[STATUS]:02X} D{cells[DATA_STACK]:02X} R{cells[CALL_STACK]:02X} '
            f'{console.instruction().text}')


class Run:
    """The steps of a console up to a limit, with their trace lines, and the stop that ended them, if one did."""

    def __init__(self, console, limit, lines=None):
        self.console = console
        self.steps = 0
        self.stop = None
        self.instructions = BOOT_INSTRUCTIONS
        while self.steps < limit and self.stop is None:
            self.one(lines)

    def one(self, lines):
        console = self.console
        instruction = console.instruction()
        line = front(console, self.steps + 1) if lines is not None and instruction else ''
        try:
            console.step()
        except Stop as stop:
            self.stop = stop.reason
            self.instructions += STOP_INSTRUCTIONS
            return
        self.steps += 1
        self.instructions += STEP_INSTRUCTIONS + COPY_INSTRUCTIONS * console.copied
        if instruction.name == 'ALL':
            self.instructions += ALL_INSTRUCTIONS
        if lines is not None:
            lines.append(line + changes(console))

    def end(self):
        """The end line of a run that ended, and the state line."""
        console = self.console
        lines = []
        if self.stop is not None:
            lines = [f'exit at >{console.pc:04X}' if self.stop == EXIT else f'stop {self.stop} at >{console.pc:04X}']
        cells = console.cells
        return lines + [f'gpl >{console.pc:04X} S{cells[STATUS]:02X} D{cells[DATA_STACK]:02X} R{cells[CALL_STACK]:02X}']

    def known(self):
        """The bytes of the workspace that a stop decides, by offset: its reason in register 0, its address in
        register 1."""
        if self.stop is None:
            return {}
        words = {WORKSPACE + 2: self.console.pc}
        if self.stop != EXIT:
            words[WORKSPACE] = self.stop
        return {offset + half: word.to_bytes(2, 'big')[half] for offset, word in words.items() for half in (0, 1)}

    def dump(self):
        """The dump as 'comparable' leaves it."""
        known = self.known()
        cells = [f'{byte:02X}' for byte in self.console.cells]
        cells += [f'{known[offset]:02X}' if offset in known else '..' for offset in range(VISIBLE, 0x100)]
        lines = ['pad'] + [f">83{row:X}0 {' '.join(cells[16 * row:16 * row + 16])}" for row in range(16)]
        lines += ['vdp'] + folded(self.console.vdp)
        lines.append('regs ' + self.console.registers.hex(' ').upper())
        lines.append(f'grom >{next_in_grom(self.console.pc):04X}' if self.stop is None else OPEN_GROM)
        return lines + ['count fits', 'R0 as its cells', 'R8 as its cells']

    def report(self, lines):
        return ''.join(f'{line}\n' for line in lines + self.end() + self.dump()).encode()


def folded(memory):
    """Rows of 16 bytes; each longest run of rows equal to the row before them is one line '*'."""
    lines = []
    before = None
    for address in range(0, len(memory), 16):
        row = memory[address:address + 16]
        if row != before:
            lines.append(f">{address:04X} {row.hex(' ').upper()}")
        elif lines[-1] != '*':
            lines.append('*')
        before = row
    return lines


def unfolded(lines):
    """The 256 cells of the rows of 'pad' by their lines, or None where these are not folded as rows are."""
    rows = []
    for line, after in zip(lines, lines[1:] + [b'>83G']):
        if line == b'*' and rows:
            rows += [rows[-1]] * (int(after[3:4], 17) - len(rows))
            continue
        found = ROW.match(line)
        if not found:
            return None
        rows.append(bytes.fromhex(found.group(2).decode()))
    cells = b''.join(rows)
    again = [('>83' + line[3:] if line != '*' else line).encode() for line in folded(cells)]
    return cells if len(cells) == 0x100 and again == lines else None


def comparable(out, run):
    """A program's report with what is open taken out, after it is found to agree with itself: rows of 'pad' are folded
    as they should be, registers are the words of the workspace's cells, and the count is within its bound."""
    *text, last = out.split(b'\n')
    if last or len(text) < 8 or b'pad' not in text or b'vdp' not in text:
        return out
    start, end = text.index(b'pad'), text.index(b'vdp')
    cells = unfolded(text[start + 1:end])
    count = COUNT.match(text[-3])
    if cells is None or not count or not 0 < int(count.group(1)) <= run.instructions:
        return out
    words = [f'>{cells[place:place + 2].hex().upper()}' for place in range(WORKSPACE, 0x100, 2)]
    if text[-2:] != [' '.join([name, *words[first:first + 8]]).encode() for name, first in (('R0', 0), ('R8', 8))]:
        return out
    known = run.known()
    shown = [f'{byte:02X}' if place < VISIBLE or place in known else '..' for place, byte in enumerate(cells)]
    rows = [f">83{row:X}0 {' '.join(shown[16 * row:16 * row + 16])}".encode() for row in range(16)]
    grom = OPEN_GROM.encode() if run.stop is not None and GROM.match(text[-4]) else text[-4]
    lines = text[:start + 1] + rows + text[end:-4] + [grom, b'count fits', b'R0 as its cells', b'R8 as its cells']
    return b''.join(line + b'\n' for line in lines)
