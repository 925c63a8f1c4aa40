"""A run in lines of text: places, steps and what they changed, calls, bytes and the screen."""
from debugging.compared import compared
from debugging.words import moved, number_at
from lib import picture
from lib.dump import Dump
from lib.terminal import escaped
from stepping.places import END, LATCHES, REGISTERS, VIDEO

MOST_PLACES, LONGEST = 8, 16


def text_of(data):
    """Bytes as characters, a point for each that is none."""
    return ''.join(chr(byte) if 0x20 <= byte < 0x7F else '.' for byte in data)


def hexadecimal(data):
    return ' '.join(f'{byte:02X}' for byte in data)


class Show:
    """How a run is shown."""

    def __init__(self, record):
        self.record, self.labels = record, {}
        for name, value, _ in record.data['names']:
            self.labels.setdefault(value, name)
        self.places = {}
        for name, at, _ in record.data['places']:
            self.places.setdefault(at, name)

    def bare(self, at):
        """A place without its name."""
        if at >= REGISTERS + 8:
            return next(f'{name}.{at - first}' for name, (first, size) in LATCHES.items() if first <= at < first + size)
        return f'VR{at - REGISTERS}' if at >= REGISTERS else f'V>{at - VIDEO:04X}' if at >= VIDEO else f'>{at:04X}'

    def place(self, at, wp):
        """A place by its name, if it has one: a name of the source, or a register of the workspace."""
        if self.record.is_processor and 0 <= at - wp < 32:
            return f'R{(at - wp) // 2}'
        name = self.places.get(at)
        return f'{name} {self.bare(at)}' if name else self.bare(at)

    def line(self, address):
        """The number of the line that has an address in the record, or None."""
        return self.record.line_at.get(address)

    def called(self, number):
        """What a line is called: its file and its number."""
        line = self.record.lines[number]
        name = line[3] if len(line) > 3 else str(number + 1)
        return name if ':' in name else f'{self.record.name}:{name}'

    def where(self, address):
        """An address with its line."""
        number = self.line(address)
        return f'>{address:04X}' if number is None else f'>{address:04X} {self.called(number)}'

    def label(self, address):
        return self.labels.get(address, f'>{address:04X}')

    def position(self, number):
        """Where the run goes on after so many steps."""
        address, *_ = self.record.next_at(number)
        line = self.line(address)
        text = self.text(number, address, line)
        end = f'   {self.record.end}' if number == self.record.last else ''
        return escaped(f'{number:7} {self.where(address)}  {text}{end}')

    def text(self, number, address, line):
        """The text of the next instruction: that of its line, with the instruction that is there if it is another."""
        step = self.record.step(number + 1).text if number < self.record.last else ''
        if line is None:
            return step
        text, at, digits, *_ = self.record.lines[line]
        data = bytes.fromhex(digits)
        is_other = self.record.is_processor and step and at == address and \
            self.record.memory(number)[at:at + len(data)] != data
        return f'{text.rstrip()}   now: {step}' if is_other else text.rstrip()

    def made(self, number):
        """What a step did."""
        if number <= self.record.first:
            return ''
        record, step = self.record, self.record.step(number)
        state = record.state(number)
        texts = self.changes(step, state)
        values = compared(step.text, state.old, record.names)
        more = '  compared ' + ' with '.join(f'>{value:0{2 * size}X} ({value})' for value, size in values) if values else ''
        return escaped(f'        {step.text}  ' + (f'changed {", ".join(texts)}' if texts else 'changed nothing') + more)

    def changes(self, step, state):
        """What a step changed, each word once."""
        found = {}
        for at, digits, times in step.changes:
            size = len(digits) // 2 * times
            if size > 4:
                text = text_of(bytes(state.memory[at:at + min(size, LONGEST)]))
                found[at] = f'{self.place(at, step.wp)} and {size - 1} more: "{text}"'
                continue
            for place in range(at, at + size):
                first, width = self.unit(place, step)
                old, new = (number_at(memory, first, width) for memory in (state.old.memory, state.memory))
                found[first] = f'{self.place(first, step.wp)} {old:0{2 * width}X}->{new:0{2 * width}X}'
        texts = list(found.values())
        return texts[:MOST_PLACES] + [f'and {len(texts) - MOST_PLACES} more places'] * (len(texts) > MOST_PLACES)

    def unit(self, place, step):
        """The word or the byte that a place belongs to."""
        words = self.record.names.words
        if self.record.is_processor and 0 <= place - step.wp < 32:
            return place - (place - step.wp) % 2, 2
        if self.record.is_processor and place < VIDEO:
            is_byte = step.text.partition(' ')[0] in ('AB', 'CB', 'MOVB', 'SB', 'SOCB', 'SZCB')
            return (place, 1) if is_byte else (place & ~1, 2)
        if place in words or place - 1 in words:
            return (place - 1 if place - 1 in words else place), 2
        return place, 1

    def calls(self, number):
        """The routines that are open, the innermost first, each with its call and where it returns to."""
        for index, (begin, routine, _, slot, back) in enumerate(self.record.frames(number)):
            if back == -1 and slot == -1 and begin == 0:
                yield escaped(f'#{index} {self.label(routine)}, the program')
                continue
            at = self.record.step(begin).at if begin > self.record.first else None
            call = f'called in step {begin} at {self.where(at)}' if at is not None else f'called in step {begin}'
            yield escaped(f'#{index} {self.label(routine)}, {call}{self.returning(number, index, slot, back)}')

    def returning(self, number, index, slot, back):
        """Where a return address leads, if that is not the place after the call."""
        is_unknown = slot < 0 or slot + 1 >= VIDEO or back < 0
        if is_unknown or (self.record.is_processor and index):
            return ''
        to, wp = number_at(self.record.memory(number), slot, 2), self.record.next_at(number)[1]
        if to == back:
            return ''
        what = f'{self.place(slot, wp)} is' if self.record.is_processor else 'returns to'
        return f'; {what} {self.where(to)}, {to - back:+} from the end of the call'

    def part(self, memory, at, size):
        """The bytes of a named part as numbers, or as bytes if they are more than a word."""
        if size <= 2:
            value = number_at(memory, at, size)
            return f'>{value:0{2 * size}X} {value}'
        return hexadecimal(memory[moved(at, offset)] for offset in range(size))

    def rows(self, memory, at, size):
        """Bytes in rows of sixteen."""
        for first in range(at, min(at + size, END), 16):
            data = bytes(memory[first:min(first + 16, at + size, END)])
            yield f'{self.bare(first)} {hexadecimal(data):47}  {text_of(data)}'

    def screen(self, memory):
        """The screen as text."""
        shown = Dump(bytes(memory[0x8300:0x8400]), bytes(memory[VIDEO:REGISTERS]), bytes(memory[REGISTERS:REGISTERS + 8]))
        return [row.rstrip() for row in picture.text_rows(shown)]
