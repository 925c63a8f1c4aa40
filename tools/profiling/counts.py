"""How often the lines of a source were executed, and which ways their branches went.

A run is counted by the pairs of an address and the one that follows it. An instruction that ends the program, as EXIT,
is reached and makes no step; it is counted apart.
"""
import bisect
import collections
import typing

from expanding.lines import operation_of
from lib.languages import ASSEMBLER, GPL, OPERATIONS

# The instructions that go on at their target or after themselves, and those that go on at one of several addresses. Ways
# are counted by where they led and not by COND; a branch to the next instruction has none.
BRANCHES = {GPL: {'BR', 'BS'}}
CASES = {GPL: {'CASE', 'DCASE'}}
CALLS = {GPL: {'CALL'}, ASSEMBLER: {'BL', 'BLWP', 'XOP'}}


class Branch(typing.NamedTuple):
    """How often a branch went to its target, and how often on."""
    taken: int
    passed: int


class LineCount(typing.NamedTuple):
    """What was counted of a line that places bytes: the line, whether it is an instruction, the steps that were made at
    its first byte and at its other bytes, how often the program ended there, the ways of a branch, the number of ways
    that a CASE went, and the instructions of the processor, if they are counted."""
    line: typing.Any
    is_code: bool
    steps: int
    inside: int
    ends: int
    branch: typing.Optional[Branch]
    ways: int
    cost: int

    @property
    def reached(self):
        """How often its instruction was executed, with what ended the program."""
        return self.steps + self.ends

    @property
    def wild(self):
        """How many steps were made at bytes of it that are no instruction."""
        return self.inside if self.is_code else self.steps + self.inside + self.ends


class Counts:
    """The steps of one run, or of several together, by the lines of a listing."""

    def __init__(self, listing, language=GPL):
        self.listing, self.language = listing, language
        self.pairs, self.ends, self.begins, self.costs = (collections.Counter() for _ in range(4))

    def add(self, steps, last):
        """Counts the steps of a run, of which the last leads to an address."""
        before = None
        for step in steps:
            if before is None:
                self.began(step.address)
            else:
                self.pairs[before, step.address] += 1
            before = step.address
        if before is not None:
            self.pairs[before, last] += 1

    def began(self, address):
        """Counts a run that begins at an address."""
        self.begins[address] += 1

    def went(self, address, after):
        """Counts one step at an address, which leads to another one."""
        self.pairs[address, after] += 1

    def ended(self, address):
        """Counts an end of the program at an address, which is no step."""
        self.ends[address] += 1

    def lines(self):
        """What was counted of each line that places bytes."""
        by_address = collections.defaultdict(dict)
        for (address, after), times in self.pairs.items():
            by_address[address][after] = times
        reached = sorted({*by_address, *self.ends})
        for line in self.listing.lines:
            if line.data:
                inside = reached[bisect.bisect_right(reached, line.address):
                                 bisect.bisect_left(reached, line.address + len(line.data))]
                yield self.counted(line, by_address, inside)

    def counted(self, line, by_address, inside):
        """What was counted of a line, with the addresses of its other bytes that were reached."""
        operation, ways = operation_of(line.text.decode('latin-1')), by_address.get(line.address, {})
        steps = sum(ways.values())
        branch = None
        if operation in BRANCHES.get(self.language, ()) and target_of(line) != line.address + len(line.data):
            passed = ways.get(line.address + len(line.data), 0)
            branch = Branch(steps - passed, passed)
        wild = sum(sum(by_address.get(at, {}).values()) + self.ends[at] for at in inside)
        return LineCount(line, operation in OPERATIONS[self.language], steps, wild, self.ends[line.address],
                         branch, len(ways) if operation in CASES.get(self.language, ()) else 0,
                         sum(self.costs[at] for at in [line.address, *inside]))

    def routines(self):
        """The addresses of routines, each with how often it was begun: where runs begin, what the calls of the source
        name, and what a call has led to."""
        code = {line.address: operation_of(line.text.decode('latin-1')) for line in self.listing.lines if line.data}
        found = collections.Counter(self.begins)
        for (address, after), times in self.pairs.items():
            if code.get(address) in CALLS[self.language]:
                found[after] += times
        for line in self.listing.lines:
            if line.data and self.language == GPL and code[line.address] == 'CALL':
                found[int.from_bytes(line.data[1:3], 'big')] += 0
        return found

    def outside(self):
        """The addresses that no line has and at which steps were made, each with how many."""
        placed = sorted((line.address, line.address + len(line.data)) for line in self.listing.lines if line.data)
        starts, found = [start for start, _ in placed], collections.Counter()
        for (address, _), times in self.pairs.items():
            before = bisect.bisect_right(starts, address)
            if not before or address >= placed[before - 1][1]:
                found[address] += times
        return sorted(found.items())


def target_of(line):
    """The target of a BR or BS, which is in the GROM of the branch."""
    return line.address & 0xE000 | int.from_bytes(line.data[:2], 'big') & 0x1FFF
