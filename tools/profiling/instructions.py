"""How many instructions of the processor each step of a GPL program takes, as `gcounts` of ti_debug counts them.

Its lines are taken beside the steps of `gsteps`, one after the other, and must show the same steps. A fixed price for
each kind of step would be wrong by an instruction for some kinds.
"""
import re
import typing

from lib import command
from stepping import run
from stepping.reports import no_report
from stepping.stream import Stream

LINE = re.compile(r'(.*) count ([0-9]{1,20})')
COUNT = re.compile(r'^count ([0-9]{1,20}) PC ', re.M)


class Counted(typing.NamedTuple):
    """A step, and how many instructions were executed up to its end."""
    step: run.Step
    executed: int


def counted_of(line):
    """The step that a line of `gcounts` shows, or None."""
    found = LINE.fullmatch(line)
    step = found and run.step_of(found[1])
    return Counted(step, int(found[2])) if step else None


class CountStream(Stream):
    """The lines of `gcounts` of a GPL source, one after the other; once all are taken, the count of the dump."""
    step_of = staticmethod(counted_of)
    is_before = None

    def __init__(self, debugger, source, limit):
        super().__init__(debugger, ['gcounts', str(limit)], source, [])

    def fitting(self, steps):
        return steps

    def finish(self, report):
        self.last = count_in(report.rest)


def count_in(rest):
    """The count that a dump shows."""
    found = COUNT.search(rest)
    if not found:
        raise no_report('no count of instructions')
    return int(found[1])


class Costs:
    """What the steps of a run take, one after the other, and what has ended it."""

    def __init__(self, debugger, source, limit):
        self.stream = CountStream(debugger.path, source, limit)
        self.lines = iter(self.stream)
        # what was executed before the first step
        self.first = self.count = count_in(debugger.run('grun', '0', given=source).out.decode('latin-1'))

    def of(self, step):
        """What a step takes."""
        shown = next(self.lines, None)
        if shown is None or shown.step != step._replace(changes=[]):
            raise unlike(step.number)
        return self.up_to(shown.executed, step.number)

    def rest(self):
        """What has ended the run, if it was no step."""
        if next(self.lines, None) is not None:
            raise unlike(self.stream.count)
        return self.up_to(self.stream.last, self.stream.count)

    def up_to(self, count, number):
        """How many instructions were executed since the count before."""
        if count < self.count:
            raise command.Stopped(f'the count of instructions falls at step {number}')
        taken, self.count = count - self.count, count
        return taken


def unlike(number):
    return command.Stopped(f'gcounts and gsteps do not show one step {number}')
