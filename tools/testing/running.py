"""A case that is run, and what of it does not hold."""
import collections
import time
import typing

from lib.command import Stopped
from lib.program import Program
from stepping.clock import SECONDS, Clock
from stepping.places import END, make
from stepping.run import run_of
from testing.driver import CALL_SIZE, driver_of, wanted
from testing.lines import TestLine
from testing.only import changed_beside
from testing.places import State
from testing.reading import MOST_STEPS
from testing.tests import EXITS, REACHES, RETURNS, STOPS, Ending

LIMIT = 10_000


class Programs(typing.NamedTuple):
    """Both programs."""
    bench: Program
    debugger: Program


class Options(typing.NamedTuple):
    """How cases are run: the byte of what is not given and the most steps, if a test says none, and whether the steps
    are kept."""
    fill: typing.Optional[int] = None
    limit: int = LIMIT
    keeps_steps: bool = False


class Failure(typing.NamedTuple):
    """What does not hold: the line of the test, the text, and a note; this is on a line of the source's text, or else
    on the line of the test."""
    line: TestLine
    text: str
    number: typing.Optional[int] = None
    note: str = ''


class Outcome(typing.NamedTuple):
    """What a case has shown: its failures, how many steps it made, the seconds that it took, and if they are kept its
    steps; the address after the last, and whether the program has ended there."""
    failures: list
    made: int
    seconds: float
    steps: list
    last: int
    has_ended: bool


class Ran(typing.NamedTuple):
    """The run of a case: the steps of the routine, the address after the last, and whether it is the driver's; the
    memory that is given, the one after the call, and the one after the last step; and how it ended: as one of the ways
    to end, or as a text."""
    steps: list
    last: int
    has_left: bool
    before: bytearray
    begun: bytearray
    after: bytearray
    ending: typing.Any


def check_under_test(tested, programs, driver):
    """Stops the script if the bytes under test are not those of the source as it is."""
    made = programs.bench.run('gasm', given=driver.text)
    if made.status:
        raise Stopped(f'the lines that run a test are refused: {made.fault}', made.code)
    lowest = min(tested.first, driver.grom) if tested.image else driver.grom
    begin = tested.first - lowest
    if made.out[begin:begin + len(tested.image)] != tested.image:
        raise Stopped('the bytes under test are not those that the source is assembled to')


def end_of(driver, case, addresses):
    """How many steps the routine makes if the addresses are reached one after the other, and how it ends there by
    itself; None if it does not."""
    for count, address in enumerate(addresses):
        if driver.is_own(address):
            return count, RETURNS
        if count and address == case.routine.until:
            return count, REACHES
    return len(addresses) - 1, None


def returned(driver, call, address):
    """How a case has ended that goes on in the driver."""
    if driver.after_call is not None:
        taken = address - call - CALL_SIZE
        if taken == driver.after_call:
            return Ending(RETURNS)
        if 0 <= taken < driver.after_call:
            return f'it returned after {taken} of the {driver.after_call} bytes after the call'
    return f'it left the source for >{address:04X}'


def ended(made, count):
    """How a case has ended that did not leave the source."""
    if made.cut:
        return f'it was cut off after {count:,} steps, as {made.cut}'
    if made.reason is None:
        return f'it did not end in {count:,} steps'
    return Ending(STOPS, made.reason) if made.reason else Ending(EXITS)


def state_before(case, driver, made, memory):
    """The memory before a case, which must be the one that is asked for."""
    before = bytearray(END)
    for changes in [made.first, *(step.changes for step in made.steps[:driver.setting])]:
        make(before, changes)
    if before != memory or not all(driver.is_own(step.address) for step in made.steps[:driver.setting + 1]):
        raise Stopped(f'{case.title}: the state before it is not the one that is asked for')
    return before


def ran(tested, programs, case, driver, memory, limit):
    """Runs a case."""
    programs.bench.clock = programs.debugger.clock = Clock(SECONDS, 'a lower --limit makes fewer steps')
    check_under_test(tested, programs, driver)
    most = min(MOST_STEPS, limit + driver.setting + 1)
    made = run_of(programs.bench, programs.debugger, driver.text, most)
    before = state_before(case, driver, made, memory)
    if len(made.steps) <= driver.setting:
        return Ran([], made.last, True, before, before, before, f'it was not begun: {ended(made, 0)}')
    begin, *own = made.steps[driver.setting:]
    count, kind = end_of(driver, case, [*(step.address for step in own), made.last])
    last = own[count].address if count < len(own) else made.last
    begun = bytearray(before)
    make(begun, begin.changes)
    after = bytearray(begun)
    for step in own[:count]:
        make(after, step.changes)
    ending = Ending(REACHES) if kind == REACHES else \
        returned(driver, begin.address, last) if kind else ended(made, count)
    return Ran(own[:count], last, driver.is_own(last), before, begun, after, ending)


def last_change(made, fault):
    """The step that was the last to change the bytes of a fault, and its number; None if none did."""
    wanted_at, memory, found = set(fault.at), bytearray(made.begun), None
    for number, step in enumerate(made.steps, 1):
        if any(wanted_at.intersection(range(at, at + len(digits) // 2 * times)) for at, digits, times in step.changes):
            old = [memory[at] for at in fault.at]
            make(memory, step.changes)
            if any((memory[at] ^ byte) & fault.bits for at, byte in zip(fault.at, old)):
                found = number, step
    return found


def of_check(tested, made, line, fault):
    """The failure of a check."""
    if not fault.at:
        return Failure(line, fault.text)
    found = last_change(made, fault)
    if not found:
        return Failure(line, fault.text, note='no step changed what is wrong')
    return Failure(line, fault.text, *tested.said_of(found[1].address, f'last changed in step {found[0]} by'))


def failures_of(tested, case, made):
    """What does not hold of a run."""
    if made.ending != case.ending:
        said = made.ending if isinstance(made.ending, str) else f'it ended by {made.ending}'
        note = [] if made.has_left else tested.said_of(made.last, 'it came to')
        yield Failure(case.ending_line, f'{said}, expected {case.ending}', *note)
        return
    visits = collections.Counter(step.address for step in made.steps)
    state = State(made.after, len(made.steps), visits)
    for line, check in case.checks:
        fault = check.fault(state)
        if fault:
            yield of_check(tested, made, line, fault)
    if case.only is not None:
        # a call that has not returned has left its return address on the stack
        first = made.before if case.ending == Ending(RETURNS) else made.begun
        fault = changed_beside(tested, case.only, first, made.after)
        if fault:
            yield of_check(tested, made, case.only_line, fault)


def outcome_of(tested, programs, options, case):
    """Runs a case, and says what does not hold."""
    begin, memory = time.monotonic(), wanted(case, options.fill)
    driver = driver_of(tested, case, memory)
    made = ran(tested, programs, case, driver, memory, case.limit or options.limit)
    failures = list(failures_of(tested, case, made))
    steps = made.steps if options.keeps_steps else []
    has_ended = isinstance(made.ending, Ending) and made.ending.kind in (EXITS, STOPS)
    return Outcome(failures, len(made.steps), time.monotonic() - begin, steps, made.last, has_ended)
