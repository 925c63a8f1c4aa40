"""A report of steps, read while it is written.

If a run has more changes than a page can hold, or takes longer than a page should, its last steps are left out. What a
report says must fit together: else the tools that read it stop and say so.
"""
import signal
import subprocess
import threading
import typing

from lib import command
from stepping.places import END, differing, make

MOST_BYTES = 32_000_000


def size_of(changes):
    """About how many bytes changes take in a page."""
    return sum(len(digits) + 12 for _, digits, _ in changes) + 8


def too_much(size):
    """Why no more steps are taken after changes of this size, if that is so."""
    return f'the changes are more than {MOST_BYTES // 1_000_000} MB' if size > MOST_BYTES else ''


class Whole:
    """All steps of a run, up to the most that a page can hold."""

    def __init__(self):
        self.steps, self.size = [], 0

    @property
    def count(self):
        """How many steps were taken."""
        return len(self.steps)

    def take(self, step):
        """Takes a step; why no more are taken, if that is so."""
        self.steps.append(step)
        self.size += size_of(step.changes)
        return too_much(self.size)


def steps_of(output, step_of, clock, kept):
    """Gives the steps that a report begins with to what keeps them. What follows them, and why steps are left out, if
    any are. No more are read once half of what was left on the clock is over."""
    least = clock.left / 2
    for line in output:
        step = step_of(line.decode('latin-1').rstrip('\n')) if line.endswith(b'\n') else None
        if step is None:
            return line + output.read(), ''
        cut = kept.take(step)
        if cut:
            return b'', cut
        if clock.left < least:
            return b'', clock.cut
    return b'', ''


class Report(typing.NamedTuple):
    """What a command of ti_debug reports of an input: the steps that are kept, how many there were, the rest of the
    report, why steps are left out, if any are, and the status, which is None then."""
    steps: list
    made: int
    rest: str
    cut: str
    status: typing.Optional[int]


def read(running, given, step_of, clock, kept):
    """The report that a process writes on an input. It is ended if it writes nothing for too long."""
    is_late = threading.Event()

    def end():
        is_late.set()
        running.kill()

    alarm = threading.Timer(clock.left / 2, end)
    alarm.start()
    try:
        # the whole input is read before the first byte is written
        running.stdin.write(given)
        running.stdin.close()
        rest, cut = steps_of(running.stdout, step_of, clock, kept)
        status = None if cut else running.wait()
    finally:
        alarm.cancel()
        running.kill()
    if is_late.is_set() and status == -signal.SIGKILL:
        return Report(kept.steps, kept.count, '', clock.cut, None)
    return Report(kept.steps, kept.count, rest.decode('latin-1'), cut, status)


def reported(debugger, words, given, step_of, kept=None):
    """The report of an input that the program accepts, as far as its clock allows; its steps go to what keeps them."""
    try:
        with subprocess.Popen([debugger.path, *words], stdin=subprocess.PIPE, stdout=subprocess.PIPE,
                              stderr=subprocess.DEVNULL) as running:
            report = read(running, given, step_of, debugger.clock, kept or Whole())
    except BrokenPipeError:
        # it has ended without reading its input
        raise no_report('no end of a run') from None
    except OSError as error:
        raise command.Stopped(f'{debugger.path}: {error.strerror}', command.UNREADABLE) from None
    if report.status not in (None, 0, 7):
        raise command.Stopped(f'{debugger.path} {" ".join(words)}: ended with status {report.status}')
    return report


def replayed(first, steps, is_before=None):
    """Steps, each with the bytes that it changed and no others, and the memory that all lead to. The memory before the
    first is given as changes of a memory of 0."""
    memory = bytearray(END)
    make(memory, first)
    return list(checked(memory, steps, is_before)), memory


def checked(memory, steps, is_before=None):
    """Steps one after the other, each with the bytes that it changed and no others, which are then in the memory. The
    numbers of the steps must be 1, 2 and so on. If lines show a part of the memory before their steps, and no byte that
    stays, `is_before` says whether that part is so."""
    for number, step in enumerate(steps, 1):
        yield fitting(memory, number, step, is_before)


def fitting(memory, number, step, is_before):
    """A step with what it changed, which is then in the memory."""
    is_fit = step.number == number and (is_before is None or is_before(step, memory))
    changed = differing(memory, step.changes)
    if not is_fit or (is_before and changed != step.changes):
        raise command.Stopped(f'what the program shows of step {number} does not fit the steps before it')
    return step._replace(changes=changed)


def not_led_to():
    return command.Stopped('the changes of the steps do not lead to the state that the program shows after the last')


def no_report(what):
    """That a part of a report is missing, or has another form than the one that the tools read."""
    return command.Stopped(f'the program wrote {what}; this ti_debug is perhaps of another version')


def only(number, cut, what='step'):
    """That the first steps alone are shown, as a sentence, and why."""
    shown = f'{what} is' if number == 1 else f'{counted(number, what)} are'
    return f'Only the first {shown} shown: {cut}.'


def counted(number, what='step'):
    """A number of steps in words."""
    return f'{number:,} {what}' + 's' * (number != 1)
