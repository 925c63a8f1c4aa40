"""A run by what its page is given: its steps, its lines and names, its calls, and the state after each step."""
import bisect

from debugging.words import Names, State
from stepping.places import CELLS, CELLS_END, END, PAD_END, make

# every so many steps a memory is kept
EVERY = 256
NOWHERE = -1


class Step:
    """A step: the address of its instruction, the text, what it changed, and the registers of the processor before."""

    def __init__(self, texts, given, is_processor):
        self.at, self.text = given[0], texts[given[1]]
        self.wp, self.st = given[2:4] if is_processor else (0, 0)
        self.changes = [changes_of(change) for change in given[4 if is_processor else 2:]]


def changes_of(change):
    at, digits, *times = change
    return at, digits, times[0] if times else 1


class Record:
    """A run. Its steps are numbered from the ones on that come before those that it has."""

    def __init__(self, data):
        self.data, self.is_processor = data, data['kind'] == 'exec'
        self.first, self.name, self.end = data['from'], data['name'], data['end']
        self.steps = [Step(data['texts'], given, self.is_processor) for given in data['steps']]
        self.last = self.first + len(self.steps)
        self.lines = data['lines']
        self.line_at = {}
        for number, line in enumerate(self.lines):
            self.line_at.update(dict.fromkeys(range(line[1], line[1] + len(line[2]) // 2), number))
        self.names = names_of(data, self.is_processor)
        self.cells = range(CELLS, PAD_END if self.is_processor else CELLS_END)
        self.calls = data['calls']
        self.depths = self.depths_of()
        self.kept = {}

    def depths_of(self):
        """How many routines are open after each step."""
        risen = [0] * (len(self.steps) + 2)
        for begin, _, end, *_ in self.calls:
            risen[min(max(0, begin - self.first), len(self.steps) + 1)] += 1
            if end is not None and end <= self.last:
                risen[max(0, end - self.first)] -= 1
        for number in range(1, len(risen)):
            risen[number] += risen[number - 1]
        return risen

    def next_at(self, number):
        """The next instruction after so many steps: its address, the workspace pointer and the status."""
        if number < self.last:
            step = self.steps[number - self.first]
            return step.at, step.wp, step.st
        last = self.data['last']
        return last['at'], last.get('wp', 0), last.get('st', 0)

    def step(self, number):
        return self.steps[number - self.first - 1]

    def memory(self, number):
        """The memory after so many steps."""
        at = number - self.first
        from_ = max((it for it in range(at - at % EVERY, -1, -EVERY) if it in self.kept), default=NOWHERE)
        if from_ == NOWHERE:
            memory, from_ = bytearray(END), 0
            make(memory, map(changes_of, self.data['first']))
            self.kept[0] = bytes(memory)
        memory = bytearray(self.kept[from_])
        for index in range(from_ + 1, at + 1):
            make(memory, self.steps[index - 1].changes)
            if index % EVERY == 0:
                self.kept[index] = bytes(memory)
        return memory

    def state(self, number, memory=None, before=None):
        """The state after so many steps, with the one before the last of them."""
        memory = self.memory(number) if memory is None else memory
        if number == self.first:
            return self.state_of(number, memory)
        before = self.memory(number - 1) if before is None else before
        return self.state_of(number, memory, self.state_of(number - 1, before))

    def state_of(self, number, memory, old=None):
        """The state of a memory that is given."""
        pc, wp, st = self.next_at(number)
        return State(number, memory, pc, wp, st, self.depths[number - self.first], old)

    def states(self):
        """The state after each step. The memories are changed when the next one is taken."""
        memory, before = self.memory(self.first), self.memory(self.first)
        for number in range(self.first + 1, self.last + 1):
            changes = self.step(number).changes
            make(memory, changes)
            yield self.state(number, memory, before)
            make(before, changes)

    def where(self, holds):
        """The steps at which a condition holds."""
        return [state.number for state in self.states() if holds(state)]

    def steps_that_change(self, at, size):
        """The steps that change one of some bytes."""
        return [number for number, step in enumerate(self.steps, self.first + 1)
                if any(place < at + size and at < place + len(digits) // 2 * times
                       for place, digits, times in step.changes)]

    def frames(self, number):
        """The calls that are open after so many steps, the innermost first."""
        most = bisect.bisect_right(self.calls, number, key=lambda call: call[0])
        return [call for call in reversed(self.calls[:most]) if call[2] is None or number < call[2]]


def names_of(data, is_processor):
    """What the names of a run mean in its conditions."""
    return Names(is_processor, {name.upper(): (at, size) for name, at, size in data['places']},
                 {name.upper(): value for name, value, _ in data['names']}, frozenset(data['words']))
