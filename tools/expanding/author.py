"""A source as a tool takes it: expanded if it has one of the forms, with what the author wrote for each line."""
import argparse
import collections
import itertools
import os
import re
import typing

from expanding.expand import Expanded, expanded, has_forms
from expanding.show import path_of, within
from lib.languages import ASSEMBLER, GPL
from lib.refusals import file_shown, lines, shown
from lib.sources import copied, text_copied

DEFINE = re.compile(r'([A-Za-z][0-9A-Za-z]{0,5})(?:=(?:([0-9]{1,5})|>([0-9A-Fa-f]{1,4})))?')
LINE = re.compile(rb'line ([0-9]+)')
WORD = re.compile(rb'[A-Za-z][0-9A-Za-z]*')


class Line(typing.NamedTuple):
    """A line of a listing by the author's files: what it is called, its address, its bytes, and its text."""
    name: str
    address: int
    data: bytes
    text: bytes


class Source(typing.NamedTuple):
    """A source: its path, the text that the program reads, and how it was made, if it was not read as it is."""
    path: str
    text: bytes
    made: typing.Optional[Expanded]

    @property
    def files(self):
        """The files that were read."""
        return self.made.files if self.made else [self.path]

    @property
    def refusals(self):
        """The refusals of the expansion."""
        return self.made.refusals if self.made else []

    def place(self, number):
        """The place of a line of the text."""
        return self.made.places[number - 1]

    def file(self, number):
        """The file of a line of the text."""
        return self.place(number).file if self.made else os.path.basename(self.path)

    def where(self, number):
        """The place of a line of the text, as a person reads it."""
        return str(self.place(number)) if self.made else f'{os.path.basename(self.path)}:{number}'

    def key(self, number):
        """Which line of the author a line of the text is: the file and the number, and the same of the lines of the
        macros that it comes from."""
        if not self.made:
            return (('', number),)
        place = self.place(number)
        return ((place.file, place.number), *((it.file, it.number) for it in place.within))

    @property
    def cells(self):
        """The cells of blocks: names, addresses and widths."""
        return self.made.cells if self.made else []

    def is_given(self, number):
        """Whether a line of the text comes of -D."""
        return bool(self.made) and not self.place(number).number

    def line(self, number):
        """The author's line for a line of the text."""
        return (self.made.written if self.made else lines(self.text))[number - 1].rstrip('\r')

    @property
    def local_names(self):
        """The names that were made for local labels."""
        return self.made.names if self.made else {}

    def names(self, listing):
        """The names of a listing with their values, also by the author's spelling of local labels; one that stands for
        more of them, as that of a macro which is used twice, is none."""
        found = {name.name: name.value for name in listing.names}
        if self.made:
            times = collections.Counter(label.spelled.upper() for label in self.made.names.values())
            found.update((label.spelled.upper(), found[name]) for name, label in self.made.names.items()
                         if name in found and times[label.spelled.upper()] == 1)
        return found

    def listing(self, listing):
        """A listing by the lines and the names that the author wrote."""
        if not self.made:
            return listing
        names = [name._replace(name=self.spelled(name.name)) for name in listing.names]
        return listing._replace(lines=list(self.authored(listing.lines)), names=names)

    def authored(self, listed):
        """The author's lines for lines of the text with their addresses and bytes: each once, also if several lines
        come of it."""
        if not self.made:
            yield from listed
            return
        for place, found in itertools.groupby(listed, lambda line: self.place(line.number)):
            first, *more = found
            data = b''.join(line.data for line in (first, *more))
            yield Line(place.short, first.address, data, self.line(first.number).encode('latin-1'))

    def by_author(self, rows):
        """Rows for a person on lines of the text, as rows on the author's lines: each begins with FILE:LINE: or is the
        line itself. Of a line of a macro a note says which one it is."""
        if not self.made:
            yield from rows
            return
        head, place, number = file_shown(self.path) + b':', None, None
        for row in rows:
            said = re.fullmatch(re.escape(head) + rb'([0-9]+): (.*)', row, re.S)
            if said:
                number = int(said[1])
                place = self.place(number)
                yield self.head(place) + b': ' + self.renamed(said[2])
            elif place and row.startswith(b'    '):
                yield b'    ' + shown(self.line(number))
                if place.within:
                    yield self.head(place) + b': note: ' + ', '.join(within(self.path, place)).encode()
            else:
                yield row

    def head(self, place):
        """The file and the line of a place as bytes; of a line that is in no file what it comes from."""
        if not place.number:
            return place.file.encode()
        return file_shown(path_of(self.path, place)) + b':%d' % place.number

    def renamed(self, text):
        """A message with the author's places and names."""
        text = WORD.sub(lambda it: self.spelled(it[0].decode()).encode(), text)
        return LINE.sub(lambda it: self.head(self.place(int(it[1]))), text)

    def spelled(self, name):
        """A name as the author writes it."""
        return self.local_names[name].spelled if name in self.local_names else name


def source_of(path, data, defines=(), language=GPL, most=1):
    """The source that a path names, which is expanded if it or a file that an assembler source copies has one of the
    forms, or if names are defined; Refused if a line has a form in a wrong way, unless more refusals are wanted."""
    copies = map(text_copied, copied(path, data)) if language == ASSEMBLER else ()
    if not defines and not any(has_forms(text, language) for text in (data, *copies)):
        return Source(path, data, None)
    made = expanded(path, data, defines, language, most)
    return Source(path, made.text, made)


def define(word):
    """A name and its value; 1 if none is given."""
    found = DEFINE.fullmatch(word)
    if not found:
        raise argparse.ArgumentTypeError(f'{word}: no NAME or NAME=VALUE')
    name, decimal, digits = found.groups()
    value = int(digits, 16) if digits else int(decimal or 1)
    if value > 0xFFFF:
        raise argparse.ArgumentTypeError(f'{word}: the value is above 65,535')
    return name.upper(), value


def option(parser):
    """The option that gives names of a source their values."""
    parser.add_argument('-D', '--define', metavar='NAME[=VALUE]', action='append', type=define, default=[],
                        dest='defines', help='a name of the source and its value, 1 if none is given')
