"""What the programs say of a source: its rows, its names, all that they refuse, and warnings."""
import functools
import os
import re
import sys
import typing

from editing.left_out import MOST, refusals_of
from expanding import author
from expanding.places import Refused
from lib import notes, refusals
from lib.command import Stopped
from lib.operations import GPL
from lib.refusals import REASONS
from lib.repository import TOP

from .listing import Listing
from .project import Source

# a source with more bytes shows its first refusal before the note for which all its lines are read
LONG = 100_000
WARNING = re.compile(r'(.*):([0-9]+): warning: (.*) \[([a-z]+)\]')


class Refusal(typing.NamedTuple):
    """A refused line: the file that it is in, None for the source itself; its number from 1, 0 if no line is named; the
    cause; notes; and the lines of macros that it comes from, as pairs of a file and a number."""
    file: typing.Optional[str]
    number: int
    cause: str
    notes: tuple = ()
    within: tuple = ()


class Warning(typing.NamedTuple):
    file: typing.Optional[str]
    number: int
    text: str
    name: str


class Analysis:
    """A source, what is refused of it, and the listing of what is left."""

    def __init__(self, source, written, found, listing, is_whole):
        self.source: Source = source
        self.author: author.Source = written
        self.refusals, self.listing, self.is_whole = found, listing, is_whole
        self.warnings: typing.List[Warning] = []

    @property
    def made(self):
        return self.author.made

    def file(self, name):
        """The file of an author's place: None for the source itself."""
        return None if name == self.source.root.name else name

    def place(self, file, number):
        """The author's place of a line of a listing."""
        if not self.made or not number:
            return file, number
        place = self.made.places[number - 1]
        return self.file(place.file), place.number

    @functools.cached_property
    def texts_of(self):
        """The numbers of the lines that the program reads, by the author's lines that they come from."""
        found = {}
        for number, place in enumerate(self.made.places, 1):
            for it in (place, *place.within):
                found.setdefault((self.file(it.file), it.number), []).append(number)
        return found

    def rows(self, file, number):
        """The rows of an author's line."""
        if not self.made:
            return self.listing.at(file, number)
        return [row for text in self.texts_of.get((file, number), ()) for row in self.listing.at(None, text)]

    @property
    def names(self):
        return self.listing.names

    def name(self, key):
        """A name with the author's place of its value, or None."""
        found = self.names.get(key)
        if not found:
            return None
        file, number = self.place(found.file, found.number)
        return found._replace(file=file, number=number)

    def spelled(self, name):
        return self.author.spelled(name)

    def is_read(self, file, number):
        """Whether a line of a file is before END."""
        if self.made or not self.is_whole:
            return True
        return number <= self.listing.last.get(file, 0)


def by_author(written, text):
    """A message with the author's places and names."""
    return os.fsdecode(written.renamed(text.encode('latin-1', 'replace'))) if written.made else text


def of_expansion(source, refused):
    """A refusal of the expansion."""
    def file(name):
        return None if name == source.root.name else name
    within = tuple((file(it.file), it.number) for it in refused.place.within)
    return Refusal(file(refused.place.file), refused.place.number, refused.cause, (), within)


def of_program(source, written, texts, one):
    """A refusal of the program. `texts` gives the lines of the source; without it there is no note for which all of
    them are read."""
    if not one.number:
        ended = one.ended
        reason = ended.fault or REASONS.get(ended.status, f'the program ended with status {ended.status}')
        entry = ('the entry is what END names, as in END START',) if reason == 'no entry' else ()
        return Refusal(None, 0, reason, entry)
    if one.text is None:
        note = None
    elif one.file or not texts:
        note = notes.note(one.text, one.cause, source.language)
    else:
        note = notes.note_in(texts(), one.number, one.cause, source.language)
    said = tuple(by_author(written, it) for it in (note, one.doubt) if it)
    cause = by_author(written, one.cause)
    if not written.made:
        return Refusal(one.file, one.number, cause, said)
    place = written.place(one.number)

    def file(name):
        return None if name == source.root.name else name
    within = tuple((file(it.file), it.number) for it in place.within)
    return Refusal(file(place.file), place.number, cause, said, within)


def analyse(work, source, shadow, defines=(), seen=lambda found: None):
    """What is refused of a source, and the listing of the rest. `seen` is called with the first refusals as soon as
    they are known."""
    path, found = shadow.path / source.root.name, []
    shadow.put({**{name: it.data for name, it in source.files.items()}, source.root.name: source.root.data})
    try:
        written = author.source_of(str(path), source.root.data, defines, source.language, MOST)
    except Stopped as stopped:
        cause = stopped.text.replace(f'{shadow.path}/', '')
        return Analysis(source, author.Source(str(path), b'', None), [Refusal(None, 0, cause)],
                        Listing(source.language, b''), False)
    work.check()
    found += [of_expansion(source, it) for it in written.refusals]
    if found:
        seen([*found])
    if written.made and not written.made.is_whole:
        return Analysis(source, written, found, Listing(source.language, b''), False)
    ended = work.run(source.command, given=written.text, folder=str(shadow.path))
    if ended.status == 0:
        seen([*found])
    else:
        texts = functools.lru_cache(1)(lambda: refusals.lines(written.text))
        before = written.made.left_out if written.made else []
        for one in refusals_of(work, source.command, str(path), written.text, ended, before, MOST - len(found)):
            if not found:
                seen([of_program(source, written, None if len(written.text) > LONG else texts, one)])
            found.append(of_program(source, written, texts, one))
    return Analysis(source, written, found, Listing(source.language, work.last.out), ended.status == 0 and not found)


def warnings_of(work, analysis, folder, defines=()):
    """The warnings of a GPL source that is accepted, as tools/assemble gives them of it in its folder."""
    if analysis.source.language != GPL or not analysis.is_whole:
        return []
    words = [word for name, value in defines for word in ('-D', f'{name}={value}')]
    name = analysis.source.root.name
    ended = work.made(sys.executable, '-E', str(TOP / 'tools/assemble'), '--warn', '--gpl', '--program',
                      work.programs.bench, '-o', os.devnull, *words, '--', name, given=b'', folder=folder)
    found = []
    for row in os.fsdecode(ended.err).split('\n'):
        said = WARNING.fullmatch(row)
        if said:
            found.append(Warning(analysis.file(said[1]), int(said[2]), said[3], said[4]))
    return found


def image_of(work, source, shadow, defines=()):
    """What a source is assembled to, or None, and why it is refused."""
    path = shadow.path / source.root.name
    shadow.put({**{name: it.data for name, it in source.files.items()}, source.root.name: source.root.data})
    try:
        written = author.source_of(str(path), source.root.data, defines, source.language)
    except Stopped as stopped:
        return None, stopped.text.replace(f'{shadow.path}/', '')
    except Refused as refused:
        return None, str(refused)
    ended = work.assembled(source.command, written.text, str(shadow.path))
    fault = by_author(written, ended.fault).replace(f'{shadow.path}/', '')
    return (ended.out, '') if ended.status == 0 else (None, fault)
