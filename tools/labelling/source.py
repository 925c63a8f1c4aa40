"""The text of a labelled source."""
from .calls import LIMIT
from .rows import Rows

COMMENT = 39          # the columns before a comment
WHOLE, FEW, NONE = range(3)      # which rows have a comment: all, the ones with a label or a note, none


class Source:
    """The rows of an image and the lines around them, which place nothing."""

    def __init__(self, addresses, named, head, entry, is_relocatable=False):
        self.image, self.labels, self.named = addresses.image, addresses.labels, named
        self.language, self.head, self.entry = addresses.language, head, entry
        self.rows = Rows(addresses, named, is_relocatable).rows
        self.comments = FEW if len(self.rows) * (COMMENT + len(' * >6000')) > LIMIT else WHOLE
        self.row_of_line, self.cache = [], {}

    def equates(self):
        """The names of what is outside of the image."""
        cells = [(name, at) for (_, at), name in sorted(self.named.cells.items())]
        return [f'{name:<6} EQU >{at:04X}' for name, at in [*self.labels.outside, *cells]]

    def lower(self, rows):
        """Takes the next form of each of these rows; whether one had one."""
        for row in rows:
            self.cache.pop(id(row), None)
        return any([row.lower(self.image, self.language.lister == 'dis') for row in rows])

    def text(self):
        """The source, with as many comments as its size allows; `row_of_line` has the row of each line, or None."""
        while True:
            made = self._text()
            if len(made) <= LIMIT or self.comments == NONE:
                return made
            self.comments += 1
            self.cache.clear()

    def _text(self):
        lines = [*self.head, *self.equates()]
        self.row_of_line = [None] * len(lines)
        for row in self.rows:
            if row.is_head and self.comments == WHOLE:
                lines.append('*')
                self.row_of_line.append(None)
            before, after = self.labels.lines(row.address) if row.label else ((), ())
            lines += [*before, self._line(row), *after]
            self.row_of_line += [None] * len(before) + [row] + [None] * len(after)
        lines.append('       END' if self.entry is None else f'       END {self._entry()}')
        return '\n'.join([*lines, '']).encode('latin-1')

    def _entry(self):
        name = self.labels.written(self.entry) if self.image.places[self.entry] else None
        return name or f'>{self.entry:04X}'

    def _line(self, row):
        line = self.cache.get(id(row))
        if line is None:
            line = self.cache[id(row)] = self._written(row)
        return line

    def _written(self, row):
        form = row.forms[0]
        if form.startswith('*'):
            return form
        if self.comments == NONE:
            return f'{row.label} {form}'
        operation, _, operands = form.partition(' ')
        line = f'{row.label:<6} {operation:<4} {operands}' if operands else f'{row.label:<6} {operation}'
        if row.is_directive or self.comments == FEW and not row.label and not row.note:
            return line
        return f'{line:<{COMMENT}} * >{row.address:04X}{row.note}'
