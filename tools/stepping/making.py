"""The run of a source or of object text, and all that a page is given of it."""
import os

from debugging.calls import GplFrames, ProcessorFrames
from debugging.record import names_of
from debugging.sizes import Sizes
from expanding import author, show
from expanding.places import Refused
from lib import command, refusals
from lib.languages import ASSEMBLER, GPL
from lib.sources import copied
from stepping import assembly, processor, run
from stepping.listing import Listing, check_image, image_of, listing_of
from stepping.page import CODE, data_of, data_of_processor, kinds_of, named_of, named_of_processor
from stepping.window import Window


class Rejected(Exception):
    """The program does not accept a file: it, its language, if it is a source, and how the run ended."""

    def __init__(self, source, language, ended):
        super().__init__(source, language, ended)
        self.source, self.language, self.ended = source, language, ended

    def rows(self):
        """What standard error says of it."""
        source = self.source
        return source.by_author(refusals.refusal(source.path, source.text, self.ended, self.language))


def accepted(source, language, ended):
    """The run of a program on a file, if it accepted it."""
    if ended.status not in (0, 7):
        raise Rejected(source, language, ended)
    return ended


def name_of(path):
    """The name of a file without its folder, as text."""
    return refusals.file_shown(os.path.basename(path)).decode('utf-8', 'replace')


def source_of(path, language, defines):
    """A file as the program reads it: a source of several files or with macros is expanded, object text is not."""
    given = refusals.read(path)
    if not language:
        return author.Source(path, given, None)
    try:
        return author.source_of(path, given, defines, language)
    except Refused as refused:
        refusals.write(show.refusal(path, refused))
        raise SystemExit(command.FAILED) from None


def folder_of(source):
    return os.path.dirname(source.path) or None


def files_of(source):
    """The files that are read for an assembler source."""
    return [*source.files, *copied(source.path, source.text)]


def of_source(bench, debugger, source, wanted):
    """The run of a GPL source, and what the page is given of it."""
    given = source.text
    listed = accepted(source, GPL, debugger.run('glist', given=given))
    accepted(source, GPL, debugger.run('gsteps', '0', given=given))
    listing = listing_of(listed.out)
    check_image(listing, accepted(source, GPL, bench.run('gasm', given=given)).out)
    named = named_of(source.listing(listing), source.cells, Sizes(texts_of(bench, listing)))
    window = None
    if not wanted.is_whole:
        window = Window(run.first_state(), wanted, GplFrames(), lambda step: (step.address, 0, 0),
                        names_of(named, False), run.is_before)
    made = run.run_of(bench, debugger, given, wanted.last, window)
    return made, {**data_of(name_of(source.path), made, source.listing(listing), named), **opened(window)}


def opened(window):
    """Where the page opens, if a condition says that."""
    return {'at': window.found, 'where': window.wanted.asked} if window and window.found is not None else {}


def texts_of(bench, listing):
    """The instructions of the lines of code as `gdis` lists them. Bytes of data are given as 0, each of which is an
    instruction, so that every line of code is listed from its first byte on."""
    lines = [line for line in listing.lines if line.data]
    kinds = kinds_of(lines, GPL)
    code = [line if kind == str(CODE) else line._replace(data=bytes(len(line.data))) for line, kind in zip(lines, kinds)]
    if not code:
        return []
    first = min(line.address for line in code)
    ended = bench.run('gdis', f'{first:04X}', given=image_of(Listing(code, [])))
    if ended.status:
        raise command.Stopped(f'{bench.path} gdis {first:04X}: ended with status {ended.status}')
    return [row.strip() for row in ended.out.decode('latin-1').split('\n')]


def objects_of(bench, sources):
    """The object text of the modules of a program."""
    return b''.join(accepted(it, ASSEMBLER, bench.run('asm', given=it.text, folder=folder_of(it))).out
                    for it in sources)


def of_object(bench, debugger, source, sources, wanted):
    """The run of object text, and what the page is given of it and of the sources of its modules."""
    given = source.text
    linked = accepted(source, None, bench.run('link', given=given)).out.decode('latin-1')
    accepted(source, None, debugger.run('steps', '0', given=given))
    lines, names = lines_of(debugger, sources, linked)
    named = named_of_processor(lines, [*processor.names_in(linked), *names])
    window = None
    if not wanted.is_whole:
        window = Window(processor.first_memory(linked), wanted, ProcessorFrames(lines), lambda step: step.before,
                        names_of(named, True))
    made = processor.run_of(debugger, given, linked, wanted.last, window)
    return made, {**data_of_processor(name_of(source.path), made, lines, named), **opened(window)}


def lines_of(debugger, sources, linked):
    """The lines and the names of assembler sources where linked memory has them."""
    memory, values = processor.bytes_in(linked), dict(processor.names_in(linked))
    lines, names = [], []
    for source in sources:
        ended = debugger.run('list', given=source.text, folder=folder_of(source))
        listed = assembly.listing_of(accepted(source, ASSEMBLER, ended).out)
        prefix = f'{name_of(source.path)}:' if len(sources) > 1 else ''
        placed, named = assembly.placed(source.path, listed, values, memory, prefix)
        lines += source.authored(placed)
        names += [(source.spelled(name), value) for name, value in named]
    return lines, names
