"""A run whose steps are taken one after the other while the program writes them, so that no more than one is kept.

What the steps change must lead to the state that the program shows after the last of them, as it is for a run that is
read as a whole: else it stops the script.
"""
import signal
import subprocess
import threading

from lib import command
from stepping import processor, run
from stepping.places import END, make
from stepping.reports import Report, checked, no_report, not_led_to

# how long a run may take, if nobody says it
SECONDS = 600


class Stream:
    """A run up to a number of steps: the memory after the steps that were taken, and how many these are. Once all are
    taken: where it goes on; what has ended the program there, if an instruction has that is no step, as `exit` or
    `stop 2`; and how the run ended, as a sentence."""

    def __init__(self, debugger, words, given, first, seconds=SECONDS):
        self.debugger, self.words, self.given, self.seconds = debugger, words, given, seconds
        self.memory, self.count = bytearray(END), 0
        make(self.memory, first)
        self.last = self.how = self.end = None

    @property
    def is_over(self):
        """Whether an instruction that is no step has ended the program."""
        return self.how is not None

    def __iter__(self):
        rest, status = yield from self.taken()
        self.finish(Report([], self.count, rest.decode('latin-1'), '', status))

    def taken(self):
        """The steps; and then the rest of the report, and the status of the program."""
        running = started(self.debugger, self.words)
        alarm = threading.Timer(self.seconds, running.kill)
        alarm.daemon = True
        alarm.start()
        ended = []
        try:
            with running:
                give(running, self.given)
                for step in self.fitting(self.read(running.stdout, ended)):
                    self.count += 1
                    yield step
                status = running.wait()
        finally:
            alarm.cancel()
            running.kill()
        if status == -signal.SIGKILL:
            raise command.Stopped(f'the run takes longer than {self.seconds:.0f} seconds; give fewer steps')
        if status not in (0, 7):
            raise command.Stopped(f'{self.debugger} {" ".join(self.words)}: ended with status {status}')
        return b''.join(ended), status

    def read(self, lines, ended):
        """The steps that lines show, up to the first that shows none: it is kept, with all that follow it."""
        for line in lines:
            step = self.step_of(line.decode('latin-1').rstrip('\n'))
            if step is None:
                ended.extend([line, lines.read()])
                return
            yield step

    def fitting(self, steps):
        """The steps, each with the bytes that it changed, if they fit together."""
        return checked(self.memory, steps, self.is_before)

    def step_of(self, line):
        """The step that a line shows, or None."""
        raise NotImplementedError

    def finish(self, report):
        """Takes the rest of the report: the state after the last step, and how the run ended."""
        raise NotImplementedError

    def is_before(self, step, memory):
        """Whether what the line of a step shows of the memory before it is so."""
        raise NotImplementedError


class GplStream(Stream):
    """The run of a GPL source that the program accepts."""
    is_before = staticmethod(run.is_before)
    step_of = staticmethod(run.step_of)

    def __init__(self, debugger, source, limit, seconds=SECONDS):
        super().__init__(debugger, ['gsteps', str(limit)], source, run.first_state(), seconds)
        self.limit = limit

    def finish(self, report):
        self.end = run.ending(report, self.limit)[0]
        self.last, shown = run.state_shown(report.rest)
        if self.memory != shown:
            raise not_led_to()
        ended = run.END_LINE.match(report.rest)
        self.how = ended and ended[1]


class ProcessorStream(Stream):
    """The run of object text that the program accepts and whose linked memory is listed."""
    step_of = staticmethod(processor.step_of)
    is_before = None

    def __init__(self, debugger, objects, linked, limit):
        super().__init__(debugger, ['steps', str(limit)], objects, processor.first_memory(linked))
        self.limit = limit

    def finish(self, report):
        self.end = processor.ending(report, self.limit)[0]
        self.last = processor.state_shown(report.rest, self.count, self.memory).pc
        how = processor.END_LINE.match(report.rest)[1]
        self.how = how if how in ('refused', 'port') else None


def started(debugger, words):
    """A process of the program."""
    try:
        return subprocess.Popen([debugger, *words], stdin=subprocess.PIPE, stdout=subprocess.PIPE,
                                stderr=subprocess.DEVNULL)
    except OSError as error:
        raise command.Stopped(f'{debugger}: {error.strerror}', command.UNREADABLE) from None


def give(running, given):
    """Gives a process its whole input, which it reads before it writes the first byte."""
    try:
        running.stdin.write(given)
        running.stdin.close()
    except BrokenPipeError:
        # it has ended without reading its input
        raise no_report('no end of a run') from None
