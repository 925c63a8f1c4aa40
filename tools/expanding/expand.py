"""A source of several files as one: its text, where each line was written, and what its names were."""
import os
import re
import typing

from expanding.expansion import Expansion
from expanding.names import REFUSED, WORDS
from expanding.places import Place, Refused
from expanding.refusals import note_missing
from expanding.source import of_file
from lib.collection import without_collection
from lib.command import MOST_BYTES, Stopped, read
from lib.languages import GPL

# the forms that the program refuses, by the language, each as an expression that finds it at once; and what may stand
# before an operation
FORM = {language: [re.compile(rb'%s(?![^ \t\r\n])' % form.encode()) for form in sorted(forms)]
        for language, forms in REFUSED.items()}
BEFORE = re.compile(rb'(?:[^\s*][^ \t\n]*)?[ \t]+')


class Expanded(typing.NamedTuple):
    """A source as the program reads it: its text, of each line the place and the author's line, the local labels by the
    names that were made for them, the cells with their addresses and widths, the files that were read, the main file
    first, the macros by their names, their uses, each with the name, the place and the author's line, the refusals, the
    lines that are left out for them, and whether all lines could be read."""
    text: bytes
    places: list
    written: list
    names: dict
    cells: list
    files: list
    macros: dict
    uses: list
    refusals: list
    left_out: list
    is_whole: bool

    def map(self):
        """The map of lines, as text: a row for each line, each name that was made, and each cell."""
        yield from (f'{number} {place}\n' for number, place in enumerate(self.places, 1))
        yield from (f'name {name} {label.spelled} {label.place}\n' for name, label in self.names.items())
        yield from (f'cell {name} >{at:04X} {width}\n' for name, at, width in self.cells)


def has_forms(source, language=GPL):
    """Whether a source has a line with one of the forms that the program refuses, if the line is before END."""
    upper = source.upper()
    if upper.startswith(b'.') or b'\n.' in upper:
        return True
    return any(BEFORE.fullmatch(upper, upper.rfind(b'\n', 0, found.start()) + 1, found.start())
               for form in FORM[language] for found in form.finditer(upper))


@without_collection()
def expanded(path, source, defines=(), language=GPL, most=1):
    """A source that a path names, expanded; Refused if one of its lines has a form in a wrong way. Each pair of a name
    and a value counts as a line with EQU before the first. If more refusals are wanted, up to so many are in what is
    returned, and their lines are left out."""
    if len(source) > MOST_BYTES:
        raise Stopped(f'{path}: too large')
    folder, main = os.path.dirname(path), of_file(os.path.basename(path), source)
    expansion = Expansion(folder, dict(defines), WORDS[language], most)
    for name, value in dict(defines).items():
        expansion.texts.append(f'{name:6} EQU  {value}')
        expansion.places.append(Place(f'-D {name}', 0))
        expansion.written.append(expansion.texts[-1])
    is_whole = is_taken(expansion, main)
    names = named(expansion)
    text = '\n'.join(expansion.texts).encode('latin-1')
    if expansion.texts and (source.endswith(b'\n') or expansion.places[-1] != main.place):
        text += b'\n'
    files = [path, *(os.path.join(folder, name) for name in dict.fromkeys(expansion.files))]
    return Expanded(text, expansion.places, expansion.written, names, expansion.cells, files, expansion.macros,
                    expansion.uses, [*expansion.refusals.found.values()], expansion.left_out, is_whole)


def is_taken(expansion, main):
    """Takes the lines of a main file; whether no refusal has ended that. If only one is wanted it is raised."""
    try:
        expansion.take(main)
        if expansion.ended is main:
            for text in main:
                expansion.write(main, text)
        note_missing(expansion)
    except Refused:
        if expansion.refusals.most == 1:
            raise
        return False
    return True


def named(expansion):
    """Gives the local labels of an expansion names, in all its lines: the labels by their names."""
    labels = expansion.labels
    if not labels.found:
        return {}
    names = labels.names(expansion.texts)
    expansion.texts[:] = labels.named(expansion.texts, names)
    expansion.written[:] = labels.spelled(expansion.written)
    expansion.left_out[:] = labels.spelled_rows(expansion.left_out)
    expansion.uses[:] = labels.spelled_rows(expansion.uses)
    return dict(zip(names, labels.found))


def main_file(path, defines=(), language=GPL):
    """The file that a path names, expanded."""
    return expanded(path, read(path), defines, language)
