"""A listing of ti_debug, read by need: the rows of a line are found in the report when they are asked for."""
import functools
import re
import typing

from lib.operations import GPL
from stepping import assembly, listing

ROW = re.compile(rb'\n([ 0-9]{6}[0-9]) >')
# how many lines are looked for one by one before all are
FEW = 16
FILES = re.compile(rb'\nfile(?: ([^\n]+))?(?=\n)')
LAST = re.compile(rb'\n([ 0-9]{6}[0-9]) >[^\n]*(?:\n {8}>[^\n]*)*\n?\Z')


class Row(typing.NamedTuple):
    """A line in a listing: its address, the mark of its part, and its bytes or words as they are shown."""
    address: int
    part: str
    shown: str

    def __str__(self):
        return f'>{self.address:04X}{self.part.strip()} {self.shown}'.rstrip()


class Name(typing.NamedTuple):
    """A name: its value with its mark, and where it gets that: the copied file, or None, and the number of the line."""
    name: str
    value: int
    mark: str
    file: typing.Optional[str]
    number: int


def words(values):
    return ' '.join(f'{it.number:0{2 * it.size}X}{it.mark.strip()}' for it in values)


class Listing:
    """The report of a run of `glist` or `list`."""

    def __init__(self, language, report):
        self.language, self.asked = language, 0
        first = report.find(b'\nname >') if not report.startswith(b'name >') else -1
        end = len(report) if first < 0 and not report.startswith(b'name >') else first + 1
        self.rows, self.tail = b'\n' + report[:end], report[end:]

    @functools.cached_property
    def sections(self):
        """The parts of the report that are of one file each: the file, the first place and the place after it."""
        if self.language == GPL:
            return [(None, 0, len(self.rows))]
        found, file, start = [], None, 0
        for mark in FILES.finditer(self.rows):
            found.append((file, start, mark.start()))
            file, start = mark[1] and mark[1].decode('latin-1'), mark.end()
        return [*found, (file, start, len(self.rows))]

    @functools.cached_property
    def names(self):
        """The names by their spelling in upper case."""
        if self.language == GPL:
            found = [Name(it.name, it.value, ' ', None, it.line) for it in listing.listing_of(self.tail).names]
        else:
            found = [Name(it.name, it.value.number, it.value.mark, it.file, it.number)
                     for it in assembly.listing_of(self.tail).names]
        return {it.name: it for it in found}

    def at(self, file, number):
        """The rows of a line of a file; a file that is copied more than once has more of them."""
        self.asked += 1
        if self.asked > FEW:
            return [self.row(at) for at in self.places.get((file, number), ())]
        head, found = b'\n%7d >' % number, []
        for name, start, end in self.sections:
            at = self.rows.find(head, start, end) if name == file else -1
            if at >= 0:
                found.append(self.row(at + 1))
        return found

    @functools.cached_property
    def places(self):
        """The places of all rows, by file and number."""
        found = {}
        for file, start, end in self.sections:
            for row in ROW.finditer(self.rows, start, end):
                found.setdefault((file, int(row[1])), []).append(row.start() + 1)
        return found

    def row(self, start):
        end = self.rows.find(b'\n', start)
        while self.rows.startswith(b'        >', end + 1):
            end = self.rows.find(b'\n', end + 1)
        report = self.rows[start:end + 1]
        if self.language == GPL:
            line = listing.listing_of(report).lines[0]
            return Row(line.address, ' ', line.data.hex(' ').upper())
        row = assembly.listing_of(report).lines[0]
        return Row(row.place, row.part, words(row.values))

    @functools.cached_property
    def last(self):
        """The number of the last line that is read, by file."""
        found = {}
        for file, start, end in self.sections:
            row = LAST.search(self.rows[max(start, end - 4096):end])
            if row:
                found[file] = max(int(row[1]), found.get(file, 0))
        return found
