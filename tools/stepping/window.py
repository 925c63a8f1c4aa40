"""Some steps of a run, with the state before the first of them: those from a step on, or those around the first step at
which a condition holds. The steps before are read too, since the state comes of them."""
import collections
import re
import typing

from debugging.conditions import Wrong, condition
from debugging.words import State
from lib import command
from stepping.places import END, make
from stepping.reports import counted, fitting, size_of, too_much

# how many steps a page has before and after the one at which its condition holds
BEFORE, AFTER = 500, 500


class Wanted(typing.NamedTuple):
    """Which steps of a run are wanted: the number of those that are left out at the beginning, None if that is not
    said; the most steps of the run; and the condition to look for, if there is one."""
    first: typing.Optional[int]
    last: int
    asked: typing.Optional[str] = None

    @property
    def is_whole(self):
        return not self.first and self.asked is None

    def condition(self, names):
        """What the condition asks."""
        if self.asked is None:
            return None
        try:
            return condition(self.asked, names)
        except Wrong as wrong:
            raise command.Stopped(f'{self.asked}: {wrong}', command.USAGE) from None


class Window:
    """Keeps the steps that are wanted. `state_of` gives, by the line of a step, the next address before it, the
    workspace pointer and the status; `calls` takes all steps of the run."""

    def __init__(self, first, wanted, calls, state_of, names, is_before=None):
        self.memory, self.before, self.base = (bytearray(END) for _ in range(3))
        for memory in (self.memory, self.before, self.base):
            make(memory, first)
        self.wanted, self.calls, self.state_of, self.is_before = wanted, calls, state_of, is_before
        self.holds = wanted.condition(names)
        self.steps, self.count, self.size, self.found, self.old = collections.deque(), 0, 0, None, None
        self.last_changes = []

    @property
    def begin(self):
        """How many steps come before those that are kept."""
        return self.count - len(self.steps)

    @property
    def first(self):
        """The memory before the first step that is kept, as changes of a memory of 0."""
        return [(found.start(), found[0].hex().upper(), 1) for found in re.finditer(rb'[^\0]+', self.base)]

    def take(self, step):
        """Takes a step; why no more are taken, if that is so."""
        self.calls.take(step)
        self.look(self.state_of(step), len(self.calls.stack))
        make(self.before, self.last_changes)
        step = fitting(self.memory, self.count + 1, step, self.is_before)
        self.last_changes = step.changes
        self.steps.append(step)
        self.count += 1
        self.size += size_of(step.changes)
        self.leave_out()
        if self.found is not None and self.count >= self.found + AFTER:
            return f'the page ends {AFTER} steps after the first one at which the condition holds'
        return too_much(self.size)

    def look(self, registers, depth):
        """Asks the condition of the state after the steps that were taken."""
        if self.holds is None or self.found is not None:
            return
        pc, wp, st = registers
        state = State(self.count, self.memory, pc, wp, st, depth, self.old)
        if self.count > (self.wanted.first or 0) and self.holds(state):
            self.found = self.count
        self.old = state._replace(memory=self.before, before=None)

    def leave_out(self):
        """Leaves out the steps that are not wanted, whose changes are in the memory before the others."""
        if self.wanted.first is not None:
            most = 0 if self.count <= self.wanted.first else len(self.steps)
        else:
            most = BEFORE if self.found is None else len(self.steps)
        while len(self.steps) > most:
            step = self.steps.popleft()
            make(self.base, step.changes)
            self.size -= size_of(step.changes)

    def end(self, cut, pc, wp=0, st=0):
        """No more steps are taken, for a reason or since the run has ended; where it goes on."""
        self.look((pc, wp, st), len(self.calls.stack) + (self.calls.call is not None))
        more = f'; {cut}' if cut else ''
        if self.wanted.first and self.count < self.wanted.first:
            raise command.Stopped(f'{counted(self.count)} were made, and {self.wanted.first:,} are to be left out{more}')
        if self.holds is not None and self.found is None:
            raise command.Stopped(f'{self.wanted.asked}: at no step of {self.count:,}{more}')

    def said(self, end):
        """How the run ended, with the steps that the page has."""
        return f'Steps {self.begin + 1:,} to {self.count:,}. {end}'
