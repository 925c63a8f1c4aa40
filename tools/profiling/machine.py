"""The profile of a program of the processor, by the lines of its assembler sources."""
import os

from lib.languages import ASSEMBLER
from profiling import profile
from profiling.authors import AssemblerAuthor, copied_path
from stepping import assembly, processor
from stepping.listing import Line, Listing
from stepping.stream import ProcessorStream
from stepping.subject import refused


def profile_of(bench, debugger, sources, limit):
    """The profile of the program of which the modules are assembler sources, each a path and its text."""
    objects = b''.join(accepted(path, text, bench.run('asm', given=text, folder=folder_of(path))).out
                       for path, text in sources)
    main, _ = sources[0]
    linked = accepted(main, objects, bench.run('link', given=objects), None).out.decode('latin-1')
    accepted(main, objects, debugger.run('steps', '0', given=objects), None)
    files, lines, labels = [], [], {}
    for path, text in sources:
        listed = assembly.listing_of(accepted(path, text, debugger.run('list', given=text, folder=folder_of(path))).out)
        placed, names = assembly.placed(path, listed, dict(processor.names_in(linked)), processor.bytes_in(linked))
        starts = {line.address for line in placed if line.data}
        labels.update((value, name) for name, value in names if value in starts and value not in labels)
        files += [(copied_path(path, line.file), line.number) for line in listed.lines]
        lines += placed
    listing = Listing([Line(number, line.address, line.data, line.text) for number, line in enumerate(lines, 1)], [])
    stream = ProcessorStream(debugger.path, objects, linked, limit)
    return profile.of_processor(stream, listing, AssemblerAuthor(files, lines, labels))


def folder_of(path):
    return os.path.dirname(path) or None


def accepted(path, data, ended, language=ASSEMBLER):
    """The run of a program on bytes, if it accepted them."""
    if ended.status not in (0, 7):
        raise refused(path, data, ended, lambda rows: rows, language)
    return ended
