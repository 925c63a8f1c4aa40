"""A run that is profiled: its counts, its routines, and its deepest stacks."""
import typing

from lib.languages import ASSEMBLER, GPL
from profiling.authors import Author
from profiling.counts import Counts
from profiling.routines import Calls, GplCalls, ProcessorCalls
from stepping.run import first_state


class Stack(typing.NamedTuple):
    """What a stack of GPL holds, and the bytes of each."""
    name: str
    size: int


DATA, RETURNS = Stack('bytes of data', 1), Stack('return addresses', 2)


class Deepest:
    """The highest value of each stack pointer of a GPL program before a step, with the first step that had it."""

    def __init__(self):
        self.first = dict(zip((DATA, RETURNS), bytes.fromhex(first_state()[0][1])))
        self.found = {stack: (value, None) for stack, value in self.first.items()}

    def take(self, step):
        _, data, returns = step.before
        if returns > self.found[RETURNS][0]:
            self.found[RETURNS] = (returns, step)
        if data > self.found[DATA][0]:
            self.found[DATA] = (data, step)


class Profile(typing.NamedTuple):
    """A profile: how many steps were made, how the run ended, as a sentence; the counts, the calls, the deepest stacks,
    if there are any, and the author of the lines; and the instructions of the processor before the first step, if those
    of the steps were counted."""
    steps: int
    end: str
    counts: Counts
    calls: Calls
    deepest: typing.Optional[Deepest]
    author: Author
    boot: typing.Optional[int] = None


def of_gpl(stream, listing, author, costs=None):
    """The profile of a GPL program, with what its steps cost, if that is given."""
    counts, calls, deepest = Counts(listing, GPL), GplCalls(), Deepest()
    for step in counted(stream, counts, calls):
        deepest.take(step)
        if costs:
            add_cost(step.address, costs.of(step), counts, calls)
    if costs and calls.root:
        add_cost(stream.last, costs.rest(), counts, calls)
    return Profile(stream.count, stream.end, counts, calls, deepest, author, costs and costs.first)


def add_cost(address, cost, counts, calls):
    """Adds instructions to a line and to the routine that goes on."""
    counts.costs[address] += cost
    calls.stack[-1][0].instructions += cost


def of_processor(stream, listing, author):
    """The profile of a program of the processor."""
    counts, calls = Counts(listing, ASSEMBLER), ProcessorCalls(listing.lines)
    for _ in counted(stream, counts, calls):
        pass
    return Profile(stream.count, stream.end, counts, calls, None, author)


def counted(stream, counts, calls):
    """The steps of a run, each once it is counted."""
    before = None
    for step in stream:
        address = calls.address(step)
        if before is None:
            counts.began(address)
        else:
            counts.went(before, address)
        calls.take(step)
        before = address
        yield step
    if before is not None:
        counts.went(before, stream.last)
    if stream.is_over:
        counts.ended(stream.last)
