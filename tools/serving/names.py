"""Names in the texts of a source: which one is at a place, and where each one stands."""
import re
import typing

from lib.operations import ASSEMBLER

from .text import Document, location
from .tokens import LOCAL, named, operation_of, parts

NAME, MACRO = 'name', 'macro'
WORD = re.compile('[A-Za-z][0-9A-Za-z]*')


class Key(typing.NamedTuple):
    """What is at a place: a name by its spelling in listings, or the name of a macro; how the author spells it, and its
    columns. A local label of a macro stands for a name in each use."""
    kind: str
    names: frozenset
    written: str
    start: int
    end: int

    @property
    def name(self):
        return min(self.names)


class Place(typing.NamedTuple):
    document: Document
    number: int
    start: int
    end: int
    defines: bool

    @property
    def location(self):
        return location(self.document, self.number, self.start, self.end)


def index(language, document):
    """The names of a text, each with its places: line, columns and whether the line defines it."""
    if language not in document.index:
        found = {}
        for number, line in enumerate(document.lines):
            for name, start, end, defines in named(language, line.rstrip('\r')):
                found.setdefault(name, []).append((number, start, end, defines))
        document.index[language] = found
    return document.index[language]


def places_in(language, document, name):
    """The places of one name in a text, in upper case: from the index if there is one, else from the lines that have
    the word."""
    if language in document.index:
        return document.index[language].get(name, ())
    return [(number, start, end, defines) for number, line in enumerate(document.lines) if name in line.upper()
            for found, start, end, defines in named(language, line.rstrip('\r')) if found == name]


def locals_at(analysis, file, number, written):
    """The names that listings have for a local label in a line of the author, whose number is from 0."""
    if not analysis.made:
        return frozenset()
    found, texts = set(), analysis.author.made.text.split(b'\n')
    for text in analysis.texts_of.get((file, number + 1), ()):
        found |= {word for word in WORD.findall(texts[text - 1].decode('latin-1'))
                  if word in analysis.made.names and analysis.made.names[word].written.upper() == written}
    return frozenset(found)


def key_at(analysis, file, document, position):
    """What is at a place, or None."""
    language, number = analysis.source.language, position['line']
    line, at = document.line(number), document.column(position)
    fields = parts(language, line)
    for written, start, end, _ in named(language, line):
        if start <= at <= end:
            if not LOCAL.fullmatch(written):
                return Key(NAME, frozenset([written]), written, start, end)
            found = locals_at(analysis, file, number, written)
            return Key(NAME, found, written, start, end) if found else None
    if fields and analysis.made:
        start, end = fields.operation
        word = line[start:end].upper()
        if start <= at <= end and word in analysis.made.macros:
            return Key(MACRO, frozenset([word]), word, start, end)
        start, end = fields.label
        if start <= at <= end and operation_of(line) == 'MACRO':
            return Key(MACRO, frozenset([line[start:end].upper()]), line[start:end], start, end)
    return None


def places(analysis, key):
    """The places of a name in all texts of a source. Lines after END are not read, so what is there is none."""
    language = analysis.source.language
    for file, document in files(analysis.source):
        if key.kind == MACRO:
            yield from uses(language, document, key.name)
            continue
        for number, start, end, defines in places_in(language, document, key.written.upper()):
            if LOCAL.fullmatch(key.written):
                if not locals_at(analysis, file, number, key.written.upper()) & key.names:
                    continue
            if analysis.is_read(file, number + 1):
                yield Place(document, number, start, end, defines)


def uses(language, document, name):
    """The places of a macro: its definition, and its uses."""
    for number in range(len(document.lines)):
        line = document.line(number)
        if name not in line.upper():
            continue
        fields = parts(language, line)
        operation = operation_of(line)
        if fields and operation == name:
            yield Place(document, number, fields.operation[0], fields.operation[1], False)
        elif fields and operation == 'MACRO' and line[slice(*fields.label)].upper() == name:
            yield Place(document, number, fields.label[0], fields.label[1], True)


def files(source):
    """The texts of a source: each once, with the name by which the source takes it in, or None."""
    yield None, source.root
    yield from ((name, it) for name, it in source.files.items() if it is not source.root)


def definitions(analysis, key):
    """Where a name gets its value: lines that have it as their label, or else a line REF."""
    found = [it for it in places(analysis, key) if it.defines]
    if not found and key.kind == NAME and analysis.source.language == ASSEMBLER:
        name = analysis.names.get(key.name)
        if name and name.mark == '*':
            found = [it for it in places(analysis, key) if operation_of(it.document.line(it.number)) == 'REF']
    return found


def external(analysis, key):
    """Why a name is in object text, or None: other modules know it if a line DEF or REF has it."""
    for it in places(analysis, key):
        word = operation_of(it.document.line(it.number))
        if word in ('DEF', 'REF'):
            return f'other modules know it, since a line {word} has it'
    return None


def links(source, document):
    """The files that lines of a text take in: the line, the columns of the name, and the text of the file."""
    for number in range(len(document.lines)):
        line = document.line(number)
        if not re.search('COPY|BIN', line, re.I):
            continue
        fields = parts(source.language, line)
        for kind, start, end in fields.tokens if fields else ():
            target = source.files.get(line[start + 1:end - 1]) if kind == 'file' else None
            if target:
                yield number, start + 1, end - 1, target
