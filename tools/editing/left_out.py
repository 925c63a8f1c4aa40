"""All refused lines of a source: after each the source is assembled again without what the line says.

A line that is refused keeps its label, if it is accepted with its label alone: then it only places no bytes. So a later
line may be refused since an earlier one was left out: a name may be unknown that it gave a value, and what depends on
the place of a line, as a jump that is too far, may come of the bytes that are missing. A COPY line that is left out may
be why any name is unknown.

A line of a copied file is left out in a copy of the file, which is in a folder of its own with the other copied files.
"""
import os
import pathlib
import tempfile
import typing

from expanding.names import FORMS, WORDS
from lib import notes
from lib.languages import OF_COMMAND
from lib.program import Run
from lib.refusals import PLACE, file_shown
from lib.sources import copied, text_copied

MOST = 20
BY_PLACE = {'jump too far', 'out of room', 'other grom', 'overlap', 'number too large', 'division by zero',
            'bad relocation'}
KEEPS_NO_LABEL = {'EQU', 'COPY', 'END'}


class Line:
    """A line that was left out: the copied file that it is in, or None, its number, its label, whether the label is
    still there, and whether the line would have been expanded."""

    def __init__(self, file, number, text, is_form=False):
        found = notes.fields(text)
        self.file, self.number, self.label, self.operation = file, number, found.label, found.operation.upper()
        self.is_kept = bool(self.label) and self.operation not in KEEPS_NO_LABEL and not is_form
        self.is_form = is_form

    @property
    def text(self):
        return self.label if self.is_kept else ''

    def may_define(self, names):
        """Whether one of some names is perhaps unknown since the line was left out."""
        return self.is_form or self.operation == 'COPY' or (not self.is_kept and self.label.upper() in names)

    def may_name(self, operation):
        """Whether the line might have made an operation known, as the name of a macro."""
        return self.is_form and (self.operation == 'COPY' or self.label.upper() == operation)


class Texts:
    """The texts of a source and of the files that it copies, each file by its name and the source by None."""

    def __init__(self, assembler, kind, file, source):
        self.assembler, self.kind, self.folder = assembler, kind, os.path.dirname(file) or None
        paths = [pathlib.Path(it) for it in (copied(file, source) if kind == 'asm' else [])]
        self.texts = {None: source, **{it.name: text_copied(it) for it in paths if not it.is_symlink()}}
        self.parted: typing.Dict[typing.Optional[str], list] = {}

    def line(self, file, number):
        """A line of one of them, or None if it is not there."""
        if file not in self.parted:
            self.parted[file] = self.texts.get(file, b'').split(b'\n')
        found = self.parted[file]
        if not 0 < number <= len(found):
            return None
        text = found[number - 1].decode('latin-1')
        return text.removesuffix('\r') if number < len(found) else text

    def without(self, file, left_out):
        """One of the texts, in which each of the lines that are left out is its label, or empty."""
        found = self.texts[file].split(b'\n')
        for line in left_out:
            if line.file == file:
                found[line.number - 1] = line.text.encode('latin-1')
        return b'\n'.join(found)

    def assembled(self, left_out):
        """How a run without some lines ends."""
        source = self.without(None, left_out)
        if all(line.file is None for line in left_out):
            return self.assembler.run(self.kind, given=source, folder=self.folder)
        with tempfile.TemporaryDirectory(prefix='ti_bench-') as folder:
            for name in self.texts:
                if name:
                    pathlib.Path(folder, name).write_bytes(self.without(name, left_out))
            return self.assembler.run(self.kind, given=source, folder=folder)


def doubt(file, name, cause, text, language, left_out):
    """What a refusal in a file of a source may come of, a line that was left out; or None."""
    names, operation = set(notes.names_in(text, language)), notes.fields(text).operation.upper()
    of_names = [line for line in left_out if (cause == 'unknown name' and line.may_define(names)) or (
        cause == 'unknown operation' and line.may_name(operation))]
    found = of_names[:1] or (left_out[-1:] if cause in BY_PLACE else [])
    for line in found:
        where = '' if line.file == name else f' of {os.fsdecode(file_shown(line.file or os.path.basename(file)))}'
        return f'this may come of line {line.number}{where}, which is left out'
    return None


class Refusal(typing.NamedTuple):
    """A refusal: how the run ended, the copied file and the line that it names, or None and 0, the cause, the text of
    the line, and what the refusal may come of, or None."""
    ended: Run
    file: typing.Optional[str]
    number: int
    cause: str
    text: typing.Optional[str]
    doubt: typing.Optional[str]

    def rows(self, file):
        """The rows for standard error of the doubt, if a file is the source."""
        if not self.doubt:
            return []
        path = os.path.join(os.path.dirname(file), self.file) if self.file else file
        return [b'%s:%d: note: %s' % (file_shown(path), self.number, os.fsencode(self.doubt))]


def refusals_of(assembler, kind, file, source, ended, before=(), most=MOST):
    """The refusals of a source, of which the first is given, up to so many. Lines that are left out before are given by
    their numbers and texts. A refusal that names no line of the source or of a file that it copies is the last."""
    left_out: typing.Dict[tuple, Line] = {}
    plain = WORDS[OF_COMMAND[kind]].known - FORMS
    for number, text in before:
        left_out[None, number] = Line(None, number, text, notes.fields(text).operation.upper() not in plain)
    texts = Texts(assembler, kind, file, source)
    most += len(left_out)
    while len(left_out) < most:
        place = PLACE.fullmatch(ended.fault)
        name, number, cause = (place[1], int(place[2]), place[3]) if place else (None, 0, ended.fault)
        text = texts.line(name, number) if place else None
        if text is None:
            yield Refusal(ended, name, number, cause, None, None)
            return
        line = left_out.get((name, number))
        if line is None:
            said = doubt(file, name, cause, text, OF_COMMAND[kind], [*left_out.values()])
            yield Refusal(ended, name, number, cause, text, said)
            left_out[name, number] = Line(name, number, text)
        elif line.is_kept:
            # its label alone is refused too
            line.is_kept = False
        else:
            return
        ended = texts.assembled(left_out.values())
        if ended.status != 1:
            return
