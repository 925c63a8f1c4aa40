"""Tests and their cases, as the lines of tests say them."""
import dataclasses
import typing

from testing.lines import TestLine
from testing.places import Bit

RETURNS, EXITS, STOPS, REACHES = 'returns', 'exits', 'stops', 'reaches'
# the byte of what is not given, unless a test or the command line says another one
FILL = 0xA5


class Ending(typing.NamedTuple):
    """How a case is to end: by a return, by EXIT, by a stop with a reason, or at a label."""
    kind: str
    reason: int = 0

    def __str__(self):
        return {RETURNS: 'a return', EXITS: 'EXIT', STOPS: f'a stop by reason {self.reason}',
                REACHES: 'an end at the label'}[self.kind]


class Routine(typing.NamedTuple):
    """What a test runs: from which label, whether by CALL and with which bytes after it, or up to which label."""
    label: str
    is_called: bool
    after_call: bytes = b''
    until: typing.Optional[int] = None


class Given(typing.NamedTuple):
    """A value before a case: the place and its bytes, or whether a bit is set."""
    place: typing.Any
    data: typing.Any

    def put(self, memory):
        """Puts it into a memory."""
        if isinstance(self.place, Bit):
            at, mask = self.place.addresses[0], self.place.mask
            memory[at] = memory[at] | mask if self.data else memory[at] & ~mask
        else:
            begin = self.place.begin(memory)
            memory[begin:begin + len(self.data)] = self.data


@dataclasses.dataclass
class Case:
    """One run of a test: the test's name, its own title, the line that it is of, what it runs, what is given, the
    checks with their lines, how it ends and the line that says so, the areas beside which nothing may change, if that
    is asked, the byte of what is not given, and the most steps."""
    test: str
    title: str
    line: TestLine
    routine: Routine
    given: list
    checks: list
    ending: Ending
    ending_line: TestLine
    only: typing.Optional[list]
    only_line: typing.Optional[TestLine]
    fill: typing.Optional[int]
    limit: typing.Optional[int]


@dataclasses.dataclass
class Row:
    """A row of a table: its line, its title, and what it adds to the test."""
    line: TestLine
    title: str
    given: list
    checks: list
    ending: typing.Optional[Ending]


@dataclasses.dataclass
class Test:
    """A test: its name, the line that begins it, and what the lines after it say."""
    name: str
    line: TestLine
    routine: typing.Optional[Routine] = None
    given: list = dataclasses.field(default_factory=list)
    checks: list = dataclasses.field(default_factory=list)
    ending: typing.Optional[Ending] = None
    ending_line: typing.Optional[TestLine] = None
    only: typing.Optional[list] = None
    only_line: typing.Optional[TestLine] = None
    fill: typing.Optional[int] = None
    limit: typing.Optional[int] = None
    table: typing.Any = None

    @property
    def rows(self):
        """The rows of its table; without one the test is a row of its own, which adds nothing."""
        return self.table.rows if self.table else [Row(self.line, '', [], [], None)]

    def usual_ending(self):
        """How it ends if nothing else is said."""
        if self.routine.is_called:
            return Ending(RETURNS)
        return Ending(EXITS) if self.routine.until is None else Ending(REACHES)

    def asks(self, row):
        """Whether something is expected of a row."""
        return bool(self.checks or row.checks or self.ending or row.ending or self.only is not None)

    def cases(self):
        """Its cases."""
        for row in self.rows:
            ending = row.ending or self.ending or self.usual_ending()
            ending_line = row.line if row.ending or not self.ending else self.ending_line
            title = f'{self.name}, {row.title}' if row.title else self.name
            yield Case(self.name, title, row.line, self.routine, self.given + row.given, self.checks + row.checks,
                       ending, ending_line, self.only, self.only_line, self.fill, self.limit)
