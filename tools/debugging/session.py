"""The words of tools/debug over a run: forward and back, breaks, conditions, values, calls."""
import re

from debugging.conditions import WORD, Wrong, condition
from debugging.show import Show
from debugging.words import moved
from lib.terminal import escaped
from stepping.places import REGISTERS, VIDEO

NUMBER = re.compile('[0-9]{1,9}')
PLACE = re.compile(r'(V?)@?>([0-9A-Fa-f]{4})|VR([0-7])', re.I)


class Bad(Exception):
    """A line that is no command, or asks for what the run does not have."""


class Break:
    """A place of the source at which `c` stops, with its condition; or a condition alone."""

    def __init__(self, text, address, holds):
        self.text, self.address, self.holds = text, address, holds

    def stops(self, state):
        return (self.address is None or state.pc == self.address) and (self.holds is None or self.holds(state))


class Session:
    """A run at one of its steps. Each command is a method, by its word; it gives the lines that answer it."""

    def __init__(self, record):
        self.record, self.show = record, Show(record)
        self.now, self.breaks = record.first, {}
        self.count = 0
        self.words = {
            's': self.step, 'rs': self.step_back, 'n': self.next, 'rn': self.next_back, 'fin': self.finish,
            'rfin': self.finish_back, 'c': self.go_on, 'rc': self.go_back, 'g': self.go, 'b': self.stop_at,
            'w': self.watch, 'i': self.listed, 'd': self.drop, 'when': self.when, 'rwhen': self.when_back,
            'p': self.value, 'x': self.bytes, 'last': self.last, 'bt': self.calls, 'callers': self.callers,
            'l': self.around, 'screen': self.screen, 'regs': self.registers}

    def answer(self, line):
        """The lines that answer a command."""
        word, _, rest = line.strip().partition(' ')
        if word not in self.words:
            raise Bad(f'{word}: no command; h lists them')
        try:
            return list(self.words[word](rest.strip()))
        except Wrong as wrong:
            raise Bad(str(wrong)) from None

    def here(self):
        """What the last step did, and where the run goes on."""
        made = self.show.made(self.now)
        return [*([made] if made else []), self.show.position(self.now)]

    def move(self, to):
        self.now = max(self.record.first, min(self.record.last, to))
        return self.here()

    @staticmethod
    def number(text, usual):
        if text and not NUMBER.fullmatch(text):
            raise Bad(f'{text}: no number')
        return int(text) if text else usual

    def step(self, rest):
        return self.move(self.now + self.number(rest, 1))

    def step_back(self, rest):
        return self.move(self.now - self.number(rest, 1))

    def go(self, rest):
        return self.move(self.number(rest, self.now))

    def depth(self, number):
        return self.record.depths[number - self.record.first]

    def by_depth(self, by, most):
        """Goes on until no more routines are open than so many."""
        to = self.now + by
        while self.record.first < to < self.record.last and self.depth(to) > most:
            to += by
        return self.move(to)

    def next(self, rest):
        return self.by_depth(1, self.depth(self.now))

    def next_back(self, rest):
        return self.by_depth(-1, self.depth(self.now))

    def finish(self, rest):
        return self.by_depth(1, self.depth(self.now) - 1)

    def finish_back(self, rest):
        return self.by_depth(-1, self.depth(self.now) - 1)

    def condition(self, text):
        if not text:
            raise Bad('a condition is wanted')
        return condition(text, self.record.names)

    def found(self, steps, forward, what):
        """Goes to the next of some steps, or to the previous one."""
        later = [it for it in steps if it > self.now] if forward else [it for it in steps if it < self.now][::-1]
        if not later:
            return [f'{what} at no {"later" if forward else "earlier"} step']
        return self.move(later[0])

    def when(self, rest):
        return self.found(self.record.where(self.condition(rest)), True, 'it holds')

    def when_back(self, rest):
        return self.found(self.record.where(self.condition(rest)), False, 'it holds')

    def stopping(self, forward):
        """Goes on to a break, or to the end of the run."""
        hits = self.record.where(lambda state: any(it.stops(state) for it in self.breaks.values()))
        later = [it for it in hits if it > self.now] if forward else [it for it in hits if it < self.now][::-1]
        if not later:
            return self.move(self.record.last if forward else self.record.first)
        state = self.record.state(later[0])
        names = [f'{key} {it.text}' for key, it in self.breaks.items() if it.stops(state)]
        return [escaped(f'stop: {"; ".join(names)}'), *self.move(later[0])]

    def go_on(self, rest):
        return self.stopping(True)

    def go_back(self, rest):
        return self.stopping(False)

    def address(self, text):
        """The address of a line, of a label or of four hexadecimal digits after >."""
        names, lines = self.record.names, self.record.lines
        if text.upper() in names.values:
            return names.values[text.upper()]
        if re.fullmatch('>[0-9A-Fa-f]{4}', text):
            return int(text[1:], 16)
        for number, line in enumerate(lines):
            if line[2] and text in (self.show.called(number), line[3] if len(line) > 3 else str(number + 1)):
                return line[1]
        raise Bad(f'{text}: no label, and no line with bytes')

    def kept(self, stop):
        self.count += 1
        self.breaks[self.count] = stop
        return [escaped(f'{self.count} {stop.text}')]

    def stop_at(self, rest):
        text, _, asked = rest.partition(' if ')
        address = self.address(text.strip())
        holds = self.condition(asked.strip()) if asked else None
        what = f'{text.strip()} at {self.show.where(address)}' + (f' if {asked.strip()}' if asked else '')
        return self.kept(Break(what, address, holds))

    def watch(self, rest):
        value = self.condition(rest)
        return self.kept(Break(f'{rest} changes', None, lambda state: value(state) != value(state.old)))

    def listed(self, rest):
        return [escaped(f'{key} {it.text}') for key, it in self.breaks.items()] or ['nothing stops c']

    def drop(self, rest):
        if self.breaks.pop(self.number(rest, 0), None) is None:
            raise Bad(f'{rest}: no number of a stop')
        return []

    def named(self, text):
        """The place and the size of a name of memory, if the text is one."""
        found = WORD.fullmatch(text)
        return self.record.names.places.get(text.upper()) if found else None

    def value(self, rest):
        state, place = self.record.state(self.now), self.named(rest)
        if place:
            return [escaped(f'{rest} {self.show.part(state.memory, *place)}')]
        value = self.condition(rest)(state)
        return [escaped(f'{rest} ' + (f'>{value:02X} {value}' if value >= 0 else str(value)))]

    def part(self, text):
        """A place, and how many bytes it has: a name or an address, and perhaps + and a number."""
        head, _, count = text.partition('+')
        place, found = self.named(head.strip()), PLACE.fullmatch(head.strip())
        if found:
            at = REGISTERS + int(found[3]) if found[3] else int(found[2], 16)
            place = (VIDEO + at % (REGISTERS - VIDEO) if found[1] else at), 1
        if not place:
            raise Bad(f'{head.strip() or "nothing"}: no name of memory, and no place as >8302, V>0021 or VR1')
        return place[0], self.number(count.strip(), place[1])

    def bytes(self, rest):
        at, size = self.part(rest)
        return list(self.show.rows(self.record.memory(self.now), at, min(max(size, 1), 4096)))

    def last(self, rest):
        """The step that changed a place or a value last, up to now."""
        try:
            at, size = self.part(rest)
            steps = self.record.steps_that_change(at, max(size, 1))
        except Bad:
            value = self.condition(rest)
            steps = self.record.where(lambda state: value(state) != value(state.old))
        earlier = [it for it in steps if it <= self.now]
        if not earlier:
            later = f'; the first step that does is {steps[0]}' if steps else ''
            return [escaped(f'no step up to here changes {rest}{later}')]
        step = self.record.step(earlier[-1])
        return [escaped(f'step {earlier[-1]} at {self.show.where(step.at)}'), self.show.made(earlier[-1])]

    def calls(self, rest):
        return list(self.show.calls(self.now))

    def callers(self, rest):
        """The lines that call a routine, each with how often and its first call."""
        routine, found = self.address(rest), {}
        for begin, called, *_ in self.record.calls:
            if called == routine and begin > self.record.first:
                at = self.record.step(begin).at
                found.setdefault(at, []).append(begin)
        return [escaped(f'{len(steps):6} times at {self.show.where(at)}, first in step {steps[0]}')
                for at, steps in found.items()] or [escaped(f'{rest} is not called')]

    def around(self, rest):
        """The lines around a place."""
        address = self.address(rest) if rest else self.record.next_at(self.now)[0]
        line = self.show.line(address)
        if line is None:
            raise Bad(f'>{address:04X} has no line')
        return [escaped(f'{"->" if number == line else "  "} {self.show.called(number):18} {self.record.lines[number][0]}')
                for number in range(max(0, line - 4), min(len(self.record.lines), line + 6))]

    def screen(self, rest):
        return self.show.screen(self.record.memory(self.now))

    def registers(self, rest):
        """The status and the registers of the processor, or the status and both stack pointers of GPL."""
        state = self.record.state(self.now)
        if not self.record.is_processor:
            data, returns, status = (state.memory[at] for at in (0x8372, 0x8373, 0x837C))
            return [f'PC >{state.pc:04X} ST >{status:02X} data stack >{data:02X} return stack >{returns:02X}']
        rows = [f'PC >{state.pc:04X} WP >{state.wp:04X} ST >{state.st:04X}']
        for first in (0, 8):
            texts = (f'R{number} {state.memory[moved(state.wp, 2 * number)] << 8 | state.memory[moved(state.wp, 2 * number + 1)]:04X}'
                     for number in range(first, first + 8))
            rows.append('  '.join(texts))
        return rows
