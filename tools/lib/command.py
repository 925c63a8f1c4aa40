"""The command line of a script: its words, its help, its errors and its status.

All scripts begin with `python3 -E`: PYTHONPATH and PYTHONSAFEPATH would change where their modules are found.
"""
import argparse
import io
import os
import pathlib
import re
import signal
import sys

from lib.repository import TOP
from lib.terminal import escaped

FAILED, USAGE, UNREADABLE = 1, 2, 3
# the most bytes of an input of the program: of one that has more it reads one byte more, and says that it is too large
MOST_BYTES = 1_048_576
# the signals that end a script, beside that of Ctrl-C
ENDS = (signal.SIGTERM, signal.SIGHUP)
# the word of a command line that is standard input or output in place of a file
STREAM = '-'
STANDARD_OUTPUT = 'standard output'


class Stopped(Exception):
    """A script cannot go on: the line for standard error, the status that it ends with, and lines below the first."""

    def __init__(self, text, status=FAILED, below=()):
        super().__init__('\n  '.join([text, *below]))
        self.text, self.status, self.below = text, status, below


class Ended(KeyboardInterrupt):
    """A signal ends the script, as Ctrl-C does: its number."""


class Output(io.FileIO):
    """Standard output as bytes. What fails in a write has its name, so that no error of a file is taken for it."""

    def write(self, data):
        try:
            return super().write(data)
        except OSError as error:
            error.filename = STANDARD_OUTPUT
            raise


class Version(argparse.Action):
    """The option that writes the version, and ends the script."""

    def __init__(self, **more):
        super().__init__(nargs=0, default=argparse.SUPPRESS, **more)

    def __call__(self, words, *given):
        # that module stands on this one
        from lib.version import version
        print(name(), version())
        words.exit()


def name():
    """The script as it was called: `tools/screen` in the repository, `ti_bench-screen` if it is installed."""
    script = pathlib.Path(sys.argv[0])
    place = script.parent.resolve() / script.name
    return str(place.relative_to(TOP)) if TOP in place.parents else script.name


def called(document):
    """The text of a script with the names by which its tools are called: a command `ti_bench-screen` has the others
    beside it."""
    beside, command, _ = name().rpartition('ti_bench-')
    return re.sub(r'\btools/([a-z]+)\b', rf'{beside}ti_bench-\1', document) if command else document


def parser(document, **more):
    """A parser of the words, whose help is the script's own text; words that do not fit end it with status 2."""
    made = argparse.ArgumentParser(prog=name(), description=called(document), add_help=True, allow_abbrev=False,
                                   formatter_class=argparse.RawDescriptionHelpFormatter, **more)
    made.add_argument('--version', action=Version, help='write the version')
    return made


def number(least, most):
    """What takes a word that is a number in a range, and rejects every other."""
    def taken(word):
        digits = word.lstrip('0') or word[-1:]
        is_number = word.isascii() and word.isdecimal() and len(digits) <= len(str(most))
        if not is_number or not least <= int(digits) <= most:
            shown = word if len(word) <= 40 else f'{word[:40]}..'
            raise argparse.ArgumentTypeError(f'{shown}: no number from {least:,} to {most:,}')
        return int(digits)
    return taken


def unreadable(error, named=None):
    """What stops a script at an error of the system: the file or stream that it is about, by this name or else by that
    of the error, and the cause."""
    found = error.filename if named is None else named
    cause = error.strerror or str(error)
    if isinstance(found, bytes):
        found = os.fsdecode(found)
    return Stopped(cause if found is None else f'{found}: {cause}', UNREADABLE)


def input_bytes(most=MOST_BYTES):
    """Standard input: all of it, or so many bytes and one more; without a limit for what another program reports."""
    try:
        return sys.stdin.buffer.read(-1 if most is None else most + 1)
    except OSError as error:
        raise unreadable(error, 'standard input') from None


def input_text():
    """A report that comes by standard input as text, each byte a character."""
    return input_bytes(None).decode('latin-1')


def beginning(path):
    """The bytes of a file that the program is to read: all, or one more than it takes."""
    with open(path, 'rb') as file:
        return file.read(MOST_BYTES + 1)


def read(path):
    """The same of a file or of standard input; what cannot be read stops the script."""
    if path == STREAM:
        return input_bytes()
    try:
        return beginning(path)
    except OSError as error:
        raise unreadable(error, path) from None


def open_streams():
    """Opens the standard streams that the script was called without. A read and a write of standard input and output
    then fails as one of a closed stream does, and messages go nowhere. Text that the locale cannot show is written as
    escapes."""
    for number, (stream, kind, mode) in enumerate((('stdin', os.O_WRONLY, 'r'), ('stdout', os.O_RDONLY, 'w'),
                                                   ('stderr', os.O_WRONLY, 'w'))):
        if getattr(sys, stream) is None:
            os.dup2(os.open(os.devnull, kind), number)
            setattr(sys, stream, open(number, mode, closefd=False))
    sys.stdout = io.TextIOWrapper(io.BufferedWriter(Output(sys.stdout.fileno(), 'w', closefd=False)),
                                  encoding=sys.stdout.encoding, errors='backslashreplace',
                                  line_buffering=sys.stdout.isatty())
    if isinstance(sys.stderr, io.TextIOWrapper):
        sys.stderr.reconfigure(errors='backslashreplace')


def end(number, frame):
    """What a signal to end does: it stops the script where it is, so that what it has begun is ended too. The end is
    not stopped by another one."""
    for other in ENDS:
        signal.signal(other, signal.SIG_IGN)
    raise Ended(number)


def hear_signals():
    """Lets the signals to end stop the script, but for those that it was called without."""
    for number in (signal.SIGINT, *ENDS):
        if signal.getsignal(number) != signal.SIG_IGN:
            signal.signal(number, end)


def run(main):
    """Ends the process with the status that `main` returns, 0 for None; after a signal it is 128 and its number. A
    reader of its output that has gone ends it quietly, as it ends other programs; a file or a stream that cannot be
    read or written is named."""
    hear_signals()
    open_streams()
    try:
        status = returned(main)
        sys.stdout.flush()
    except Stopped as stopped:
        status = report(stopped)
    except BrokenPipeError:
        drop_output()
        status = 128 + signal.SIGPIPE
    except OSError as error:
        if error.filename == STANDARD_OUTPUT:
            drop_output()
        status = report(unreadable(error))
    except Ended as ended:
        status = 128 + ended.args[0]
    sys.exit(status)


def returned(main):
    """The status that `main` returns, or that the parser of its words ends with."""
    try:
        return main()
    except SystemExit as ended:
        return ended.code


def drop_output():
    """Drops what is still to be written to standard output, which fails."""
    os.dup2(os.open(os.devnull, os.O_WRONLY), sys.stdout.fileno())


def report(stopped):
    """Writes what stopped a script; its status."""
    print(f'{name()}: {escaped(stopped.text)}', *(f'  {escaped(line)}' for line in stopped.below), sep='\n',
          file=sys.stderr)
    return stopped.status
