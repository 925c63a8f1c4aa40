"""The source that a tool runs, once the programs accept it: what the author wrote, and its lines and names."""
import typing

from expanding import author, show
from expanding.places import Refused
from lib import command, notes, refusals
from lib.languages import GPL
from stepping.listing import Listing, check_image, listing_of


class Refusal(Exception):
    """A source that is refused: the lines for standard error, and the status that a script ends with."""

    def __init__(self, rows, status=command.FAILED):
        super().__init__(rows, status)
        self.rows, self.status = list(rows), status


class Subject(typing.NamedTuple):
    """A GPL source with its listing, whose lines are those of the text that the program reads."""
    source: author.Source
    listing: Listing


def refused(path, data, ended, rows_of, language=GPL):
    """The refusal of a source by the run of a program; its rows are shown by the author's lines."""
    rows = rows_of(refusals.refusal(path, data, ended, language))
    return Refusal([*rows, *refusals.of_file(path, notes.kind_note(data))], ended.code)


def gpl_subject(bench, debugger, path, defines, is_run=True):
    """The GPL source that a path names, which is expanded if it has one of the forms, and which can be run, unless it
    is not to be."""
    given = refusals.read(path)
    try:
        source = author.source_of(path, given, defines)
    except Refused as error:
        raise Refusal(show.refusal(path, error)) from None
    listed, made = debugger.run('glist', given=source.text), bench.run('gasm', given=source.text)
    for ended in (listed, made, *([debugger.run('gsteps', '0', given=source.text)] if is_run else [])):
        if ended.status not in (0, 7):
            raise refused(path, source.text, ended, source.by_author)
    listing = listing_of(listed.out)
    check_image(listing, made.out)
    return Subject(source, listing)
