"""The check: the program makes the same bytes of a source, at the addresses that its comments say."""
import re

from .calls import LIMIT, Rejected, report
from .data import byte_row, word_row
from .image import MEMORY, Image, of_link, words_of
from .linked import links, without
from .places import misplaced

TRIES, SINGLE = 64, 8      # how often rows are lowered, and after how many times their number doubles


class OfImage:
    """What has to come of the source of an image: its bytes, or the object text of its words alone."""

    def __init__(self, program, language, image, entry):
        self.program, self.language, self.image, self.entry = program, language, image, entry
        self.start, end = image.segments[0]
        self.data = image.bytes(self.start, end)
        self.wanted = self.data if language.assembler == 'gasm' else self.made(self._with_entry(self._words()))

    def _words(self):
        even = len(self.data) - len(self.data) % 2
        lines = [f' AORG >{self.start:04X}']
        lines += [f' {word_row(self.data[i:min(i + 16, even)])}' for i in range(0, even, 16)]
        lines += [f' {byte_row(self.data[even:])}'] if even < len(self.data) else []
        return '\n'.join([*lines, ' END\n']).encode()

    def _with_entry(self, source):
        return source if self.entry is None else re.sub(rb'END\n\Z', f'END >{self.entry:04X}\n'.encode(), source)

    def flat(self):
        """The listing as it is, with the entry."""
        return self._with_entry(report(self.program, self.language.lister, f'{self.start:04X}', given=self.data))

    def made(self, source):
        """What the program makes of a source."""
        return report(self.program, self.language.assembler, given=source)

    def first_difference(self, made):
        """The address of the first byte that is not the image's, or None if it is not known."""
        bytes_ = made if self.language.assembler == 'gasm' else words_of(made)
        return self.image.first_difference(Image([(self.start, bytes_[:MEMORY - self.start])]))


class OfObject:
    """What has to come of the source of an object: what `link` lists of it, but for the names that are left out, alone
    and, if it is to be moved, after another module too. It is linked anew for that."""

    def __init__(self, program, text, left_out, image, is_relocatable):
        self.program, self.left_out, self.image, self.is_relocatable = program, left_out, image, is_relocatable
        self.wanted = self._linked(text)

    def _linked(self, text):
        listed = [report(self.program, 'link', given=text)]
        listed += links(self.program, text, [['GAP', 'OBJECT']] if self.is_relocatable else [])
        return [it and without(it, self.left_out) for it in listed]

    def made(self, source):
        return self._linked(report(self.program, 'asm', given=source))

    def first_difference(self, made):
        return self.image.first_difference(of_link(made[0])[2])


def checked(source, wanted):
    """The text of a source that passes the check, or None, and how many times rows were lowered for it."""
    for tries in range(TRIES):
        text = source.text()
        if len(text) > LIMIT:
            break
        row = _fault(source, text, wanted)
        if row is None:
            return text, tries
        first = source.rows.index(row) if row in source.rows else len(source.rows)
        if not source.lower(source.rows[first:first + (1 << tries // SINGLE)]):
            break
    return None, TRIES


def _fault(source, text, wanted):
    """A row at which the check fails, some other thing if that is not known, or None if it passes."""
    try:
        made = wanted.made(text)
    except Rejected as rejected:
        found = re.match(r'line (\d+): ', str(rejected))
        number = int(found[1]) - 1 if found else -1
        return (0 <= number < len(source.row_of_line) and source.row_of_line[number]) or 'a line that is no row'
    if made != wanted.wanted:
        at = wanted.first_difference(made)
        return next((row for row in source.rows if at is not None and row.address <= at < row.address + row.length),
                    'no row')
    try:
        return misplaced(wanted.program, source)
    except Rejected:
        return 'no row'
