"""The calls of a run, each with the steps between which its routine goes on, by the rules of tools/profile."""
import typing

from profiling.routines import Calls, GplCalls, ProcessorCalls, routines
from stepping.places import CELLS

# how many bytes CALL has
CALL_BYTES = 3


class Frame(typing.NamedTuple):
    """A routine as it was called: how many steps were made before its first one, the last of which is the call; its
    address; how many were made when it had ended, None if it has not; where its return address is, and the address
    after the call, or -1 for what is not known."""
    begin: int
    routine: int
    end: typing.Optional[int]
    slot: int
    back: int


class Frames(Calls):
    """Keeps each frame that is put on the stack of calls, and when it is taken off, by the number of steps that were
    made."""

    def __init__(self, *given):
        super().__init__(*given)
        self.kept, self.open, self.first, self.count = [], [], None, 0

    def take(self, step):
        self.first = step
        super().take(step)
        self.count += 1

    def enter(self, node, known):
        super().enter(node, known)
        self.open.append(len(self.kept))
        self.kept.append(Frame(self.count, node.routine, None, *(self.returns() if self.call else (-1, -1))))

    def drop(self, kept):
        for index in self.open[kept:]:
            self.kept[index] = self.kept[index]._replace(end=self.count)
        del self.open[kept:]
        super().drop(kept)

    def returns(self):
        """Where the return address of a routine is at its first step, and the address after the call."""
        raise NotImplementedError

    @property
    def frames(self):
        """The frames by their beginnings; the first is that of the program, which does not end."""
        return self.kept

    @property
    def routines(self):
        return routines(self)


class GplFrames(Frames, GplCalls):
    """The calls of a GPL program, whose return addresses are on a stack of words."""

    def returns(self):
        return CELLS + self.first.before[2], self.call.address + CALL_BYTES


class ProcessorFrames(Frames, ProcessorCalls):
    """The calls of a program of the processor, by the lines of its sources. BL has its return address in R11; BLWP and
    XOP have it in R14 of the new workspace."""

    def returns(self):
        register = 11 if self.call.text.startswith('BL ') else 14
        line = self.lines.get(self.call.before.pc)
        return self.first.before.wp + 2 * register, line.address + len(line.data) if line else -1


def taken(calls, steps):
    """The calls of some steps."""
    for step in steps:
        calls.take(step)
    return calls


def ended(calls, after):
    """The calls once no more steps come; `after` is what the next one would be."""
    if calls.count and calls.call is None:
        calls.leave(after)
    elif calls.count:
        calls.first = after
        calls.kept.append(Frame(calls.count, calls.address(after), None, *calls.returns()))
        calls.call = None
    return calls
