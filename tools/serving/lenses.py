"""What is shown above lines: addresses, bytes and uses of labels, tests that can be run, and lines that never ran."""
import os
import re

from . import names
from .project import read_file, stamp_of
from .text import place

TEST = re.compile(r'\*! +test +(\S.*?) *')
RUN_TEST = 'ti_bench.test'
MOST_TRACEFILES, MOST_SHOWN = 20, 40


def lens(document, number, title, command='', arguments=()):
    return {'range': place(document.line(number), number, 0, 0),
            'command': {'title': title, 'command': command, 'arguments': [*arguments]}}


def of_labels(analysis, file):
    """Above each label its value, its bytes and how often it is used."""
    document, language = analysis.source.document(file), analysis.source.language
    for _, text in names.files(analysis.source):
        names.index(language, text)
    for name in map(analysis.name, analysis.names):
        if name.file == file and name.number and document:
            key = names.Key(names.NAME, frozenset([name.name]), analysis.spelled(name.name).rpartition('.')[0] and
                            '.' + analysis.spelled(name.name).rpartition('.')[2] or name.name, 0, 0)
            uses = sum(not it.defines for it in names.places(analysis, key))
            rows = ' '.join(row.shown for row in analysis.rows(file, name.number))[:MOST_SHOWN]
            title = f'>{name.value:04X}{name.mark.strip()} {rows}'.rstrip()
            yield lens(document, name.number - 1, f'{title}  {uses} use{"" if uses == 1 else "s"}')


def of_tests(document):
    """Above each test that it can be run."""
    for number in range(len(document.lines)):
        found = TEST.fullmatch(document.line(number)) if document.lines[number].startswith('*!') else None
        if found:
            yield lens(document, number, f'run the test {found[1]}', RUN_TEST, [document.uri, found[1]])


def never_run(document, beside):
    """The numbers of the lines that have not run by the newest tracefile that knows the text as it is in its file; and
    the name of the tracefile."""
    stamp = stamp_of(document.path) if document.path else None
    if not stamp or read_file(document.path) != document.data:
        return None, ()
    folder, found = os.path.dirname(document.path), []
    for name in [it for it in beside if it.endswith('.info')][:MOST_TRACEFILES]:
        path = os.path.join(folder, name)
        traced = stamp_of(path)
        if traced and traced[0] >= stamp[0]:
            found.append((traced[0], name, read_file(path) or b''))
    for _, name, data in sorted(found, reverse=True):
        counts = counts_of(data.decode('utf-8', 'replace'), document.path, folder)
        if counts:
            return name, sorted(number for number, count in counts.items() if not count)
    return None, ()


def counts_of(text, path, folder):
    """How often the lines of a file ran, by a tracefile."""
    counts, is_here = {}, False
    for row in text.split('\n'):
        if row.startswith('SF:'):
            is_here = os.path.normpath(os.path.join(folder, row[3:])) == path
        elif is_here and row.startswith('DA:'):
            number, _, count = row[3:].partition(',')
            if number.isdigit() and count.isdigit():
                counts[int(number)] = counts.get(int(number), 0) + int(count)
    return counts


def of_tracefile(document, beside):
    """Above the first of some lines in a row that never ran, that they did not."""
    name, numbers = never_run(document, beside)
    first = before = None
    for number in [*numbers, None]:
        if before is not None and number == before + 1:
            before = number
            continue
        if first is not None and first <= len(document.lines):
            lines = f'line {first}' if first == before else f'lines {first} to {before}'
            yield lens(document, first - 1, f'never executed: {lines} ({name})')
        first = before = number
