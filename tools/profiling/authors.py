"""What the author wrote for the lines of a listing: their files and numbers, their text, and the names of addresses."""
import os

from expanding.lines import operation_of
from expanding.show import path_of
from lib.refusals import file_shown, shown


class Author:
    """The author's lines, by the numbers of the lines of a listing, and the labels of addresses."""

    def __init__(self, labels):
        self.labels = labels

    def file(self, number):
        """The path of the file of a line, and its number there."""
        raise NotImplementedError

    def text(self, number):
        """The text of a line, safe for a terminal."""
        raise NotImplementedError

    def where(self, number):
        """The file and the number of a line, as editors read them."""
        path, number = self.file(number)
        return f'{file_shown(path).decode("utf-8", "replace")}:{number}'

    def name(self, address):
        """The label of an address, or the address."""
        return self.labels.get(address, f'>{address:04X}')


class GplAuthor(Author):
    """The author of a GPL source, which may have several files. A line of a macro is where the macro is used."""

    def __init__(self, source, listing):
        self.source, self.lines = source, listing.lines
        labels = {}
        for name in listing.names:
            if operation_of(self.lines[name.line - 1].text.decode('latin-1')) != 'EQU':
                labels.setdefault(name.value, source.spelled(name.name))
        super().__init__(labels)

    def file(self, number):
        if not self.source.made:
            return self.source.path, number
        place = self.source.place(number)
        return path_of(self.source.path, place), place.number

    def where(self, number):
        if self.source.is_given(number):
            return self.source.place(number).file
        within = self.source.place(number).within if self.source.made else ()
        return super().where(number) + ''.join(f' {it.macro}:{it.number}' for it in within)

    def text(self, number):
        return text_of(self.source.line(number))


class AssemblerAuthor(Author):
    """The author of assembler sources, each with its path and its listing, in the order of the lines."""

    def __init__(self, files, lines, labels):
        self.files, self.lines = files, lines
        super().__init__(labels)

    def file(self, number):
        return self.files[number - 1]

    def text(self, number):
        return text_of(self.lines[number - 1].text.decode('latin-1'))


def text_of(line):
    return shown(line).decode('utf-8', 'replace')


def copied_path(source, file):
    """The path of a line's file, which is a source or one that it copies."""
    return os.path.join(os.path.dirname(source), file) if file else source
