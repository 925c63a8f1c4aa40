"""The lines of tests: those of a source that begin with the mark *!, and those of files of their own."""
import re
import typing

from expanding.show import path_of
from lib import command, refusals

MARK = re.compile(r'\*![ \t]*(.*)', re.S)


class TestLine(typing.NamedTuple):
    """A line of tests: its file, its number there, its text, what it says, and its number in the text of the source, if
    it is in that."""
    path: str
    number: int
    text: str
    said: str
    of_source: typing.Optional[int] = None


class Wrong(Exception):
    """A line of tests that is wrong: the line and the cause."""

    def __init__(self, line, cause):
        super().__init__(line, cause)
        self.line, self.cause = line, cause

    def rows(self):
        """The lines for standard error."""
        return refusals.explanation(self.line.path, self.line.number, self.cause, self.line.text)


def said_by(text):
    """What a line says: nothing if it is a remark."""
    said = text.strip(' \t')
    return '' if said.startswith('*') else said


def of_source(source):
    """The lines of tests of a source, in the order of its text."""
    for number, text in enumerate(refusals.lines(source.text), 1):
        if not MARK.match(text):
            continue
        path, line = source.path, number
        if source.made:
            place = source.place(number)
            path, line = path_of(source.path, place), place.number
        written = source.line(number)
        marked = MARK.match(written)
        found = TestLine(path, line, written, said_by(marked[1]) if marked else '', number)
        if source.made and source.place(number).within:
            raise Wrong(found, 'a line of tests in a macro, which would be read at each use')
        yield found


def of_file(path):
    """The lines of a file of tests, with or without the mark."""
    data = command.read(path)
    if len(data) > command.MOST_BYTES:
        raise command.Stopped(f'{path}: too large')
    for number, text in enumerate(refusals.lines(data), 1):
        marked = MARK.match(text)
        yield TestLine(path, number, text, said_by(marked[1] if marked else text))
