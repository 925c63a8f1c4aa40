"""The routines of a run: the stack of calls at each step, and what each routine took by itself and with its calls.

A routine of GPL has ended once the pointer of the return addresses is lower than in its first step. RTN does not say
it, since a program may drop a return address or set the pointer. Machine code has no such pointer: there a return is a
jump of B or RTWP to the place after the call, or after the data that follow it.
"""
import dataclasses
import typing

from expanding.lines import operation_of
from lib.languages import ASSEMBLER, DIRECTIVES

# how much a call of GPL adds to the pointer of the return addresses
WORD = 2
# the instructions of the processor that call, and how many bytes each has at most; and those that return
CALLS, RETURNS = ('BL ', 'BLWP ', 'XOP '), ('B ', 'RTWP')


@dataclasses.dataclass(eq=False)
class Node:
    """A routine by its address, as it was called from another one: how often, its own steps and instructions of the
    processor, and the routines that it called."""
    routine: int
    parent: typing.Optional['Node'] = None
    calls: int = 0
    steps: int = 0
    instructions: int = 0
    called: dict = dataclasses.field(default_factory=dict)

    def path(self):
        """The routines from the first one to this."""
        return [*(self.parent.path() if self.parent else []), self.routine]


@dataclasses.dataclass
class Routine:
    """What a routine took in all its calls: by itself, and with the routines that it called."""
    address: int
    calls: int = 0
    steps: int = 0
    whole: int = 0
    instructions: int = 0
    whole_instructions: int = 0


class Calls:
    """The stack of calls while steps are taken."""

    def __init__(self):
        self.root = None
        # of each frame the node, and what is known of its return
        self.stack, self.call = [], None

    def take(self, step):
        """Counts a step for the routine that makes it."""
        address = self.address(step)
        if self.root is None:
            self.root = Node(address, calls=1)
            self.enter(self.root, None)
        elif self.call is not None:
            top = self.stack[-1][0]
            node = top.called.setdefault(address, Node(address, top))
            node.calls += 1
            self.enter(node, self.returning(step))
        else:
            self.leave(step)
        self.call = step if self.is_call(step) else None
        self.stack[-1][0].steps += 1

    def enter(self, node, known):
        self.stack.append((node, known))

    def drop(self, kept):
        """Takes frames off the stack, so that so many stay."""
        del self.stack[kept:]

    def address(self, step):
        """The address of the instruction of a step."""
        raise NotImplementedError

    def is_call(self, step):
        """Whether a step calls a routine, where the next step is."""
        raise NotImplementedError

    def returning(self, step):
        """What is known of the return of a routine at its first step."""
        raise NotImplementedError

    def leave(self, step):
        """Takes the frames off the stack that have ended before a step."""
        raise NotImplementedError


class GplCalls(Calls):
    """The stack of calls of a GPL program. A routine has ended once the pointer of the return addresses is below what
    it was in its first step, however that came."""

    def address(self, step):
        return step.address

    def is_call(self, step):
        return step.text.startswith('CALL ')

    def returning(self, step):
        return step.before[2]

    def leave(self, step):
        pointer, kept = step.before[2], len(self.stack)
        while kept > 1 and pointer < self.stack[kept - 1][1]:
            kept -= 1
        if kept < len(self.stack):
            self.drop(kept)


class ProcessorCalls(Calls):
    """The stack of calls of a program of the processor. A routine that BL, BLWP or XOP called has ended once B or RTWP
    leads to the instruction after the call, or to one of the words of data there or to the instruction after these. One
    that goes on elsewhere is taken as not ended."""

    def __init__(self, lines):
        super().__init__()
        self.lines = {line.address: line for line in lines if line.data}
        self.before = None

    def address(self, step):
        return step.before.pc

    def take(self, step):
        super().take(step)
        self.before = step

    def is_call(self, step):
        return step.text.startswith(CALLS)

    def returning(self, step):
        return self.after(self.call.before.pc)

    def after(self, address):
        """The addresses to which the routine may return that is called at an address."""
        line = self.lines.get(address)
        if line is None:
            return range(0)
        first = end = address + len(line.data)
        while end in self.lines and is_data(self.lines[end]):
            end += len(self.lines[end].data)
        return range(first, end + 1)

    def leave(self, step):
        if self.before.text.startswith(RETURNS):
            kept = len(self.stack) - 1
            while kept and step.before.pc not in self.stack[kept][1]:
                kept -= 1
            if kept:
                self.drop(kept)


def is_data(line):
    return operation_of(line.text.decode('latin-1')) in DIRECTIVES[ASSEMBLER]


def routines(calls):
    """The routines of a run, by what they took themselves, the most first."""
    found = {}
    if calls.root:
        gather(calls.root, found, set())
    return sorted(found.values(), key=lambda it: (-it.steps, it.address))


def gather(node, found, above):
    """Adds a node and those below it to the routines, of which some are above it; what all of them took."""
    steps, instructions = node.steps, node.instructions
    for called in node.called.values():
        more = gather(called, found, above | {node.routine})
        steps, instructions = steps + more[0], instructions + more[1]
    routine = found.setdefault(node.routine, Routine(node.routine))
    routine.calls += node.calls
    routine.steps += node.steps
    routine.instructions += node.instructions
    if node.routine not in above:
        routine.whole += steps
        routine.whole_instructions += instructions
    return steps, instructions


def nodes(node):
    """A node and all below it."""
    yield node
    for called in node.called.values():
        yield from nodes(called)
