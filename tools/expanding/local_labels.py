"""Local labels: each is, until the whole source is known, one character beyond those of a source, and then a name."""
import re
import typing

from expanding.expression import REGISTERS
from expanding.lines import changed, parts_of

FIRST = 0x10000
MARK = re.compile('([\U00010000-\U0010ffff])')
# a local label in the label field with the blanks after it; and one that a blank follows, so that its name may move
# what stands after it
LABELLED = re.compile('[\U00010000-\U0010ffff] +(?!\t)')
MOVING = re.compile('[\U00010000-\U0010ffff].*[ \t]', re.S)
LABEL = re.compile(r'\.[0-9A-Za-z_]{1,31}')
# a local label in operands, or a text in quotes, in which there is none
USE = re.compile(r"'[^']*(?:'|\Z)|(?<![0-9A-Za-z_.])\.[0-9A-Za-z_]{1,31}")
WORD = re.compile('[A-Za-z][0-9A-Za-z]{0,5}')
LONGEST = 6


class Scope:
    """What local labels belong to: the label before them, or the use of a macro; by its name. A line with EQU begins none,
    nor does a label in a macro."""
    __slots__ = ('name', 'found')

    def __init__(self, name):
        self.name, self.found = name, {}


class Local:
    """A local label: the character that stands for it, how it is written, also with its scope, its first use and its
    text, and where it stands."""
    __slots__ = ('mark', 'written', 'spelled', 'use', 'text', 'place')

    def __init__(self, mark, scope, written, source):
        self.mark, self.written, self.spelled = mark, written, scope.name + written
        self.use, self.text, self.place = source.place, source.text, None

    def put(self, source):
        """Notes that it stands in the line of a source; the character."""
        if self.place:
            raise source.refused(f'duplicate label: {self.written} of the same label stands at {self.place}')
        self.place = source.place
        return self.mark


class Labels(typing.NamedTuple):
    """All local labels of a source, in the order in which they are met."""
    found: list

    def of(self, mark):
        """The label that a character stands for."""
        return self.found[ord(mark) - FIRST]

    def local(self, scope, written, source):
        """The local label that is so written."""
        key = written.upper()
        local = scope.found.get(key)
        if not local:
            local = scope.found[key] = Local(chr(FIRST + len(self.found)), scope, written, source)
            self.found.append(local)
        return local

    def marked(self, operands, scope, source):
        """Operands with the characters that stand for their local labels."""
        return USE.sub(lambda it: self.local(scope, it[0], source).mark if it[0][0] == '.' else it[0], operands)

    def names(self, texts):
        """A name for each local label, which no line has: its own letters and a number."""
        taken = {word.upper() for word in set(WORD.findall('\n'.join(texts)))} | set(REGISTERS)
        stems = {written: stem_of(written) for written in {local.written for local in self.found}}
        made, counts = [], {}
        for local in self.found:
            stem, name = stems[local.written], None
            while name is None or name in taken:
                counts[stem] = counts.get(stem, 0) + 1
                name = stem[:LONGEST - len(str(counts[stem]))] + str(counts[stem])
            taken.add(name)
            made.append(name)
        return made

    def written(self, mark):
        """How the local label is written that a character stands for."""
        return self.of(mark).written

    def spelled(self, texts):
        """Lines with their local labels as they are written."""
        return replaced(texts, self.written)

    def spelled_rows(self, rows):
        """Tuples whose last one is a line, which has its local labels as they are written."""
        return [(*row, text) for (*row, _), text in zip(rows, self.spelled([row[-1] for row in rows]))]

    def named(self, texts, names):
        """Lines with names for the characters of their local labels, in the columns that the author gave them."""
        def named(mark):
            return names[ord(mark) - FIRST]
        return replaced([text if text.isascii() else in_columns(text, self.written, named) for text in texts], named)


def replaced(texts, word_of):
    """Lines with a word for each character that stands for a local label."""
    parts = MARK.split('\n'.join(texts))
    parts[1::2] = map(word_of, parts[1::2])
    return ''.join(parts).split('\n') if texts else []


def in_columns(text, written, named):
    """A line in which names for the characters of its local labels will leave the columns as they are written. In a
    line that is a comment the local labels are as they are written."""
    if text[0] == '*':
        return replaced([text], written)[0]
    if not MOVING.search(text):
        return text
    labelled = LABELLED.match(text)
    if labelled and not MOVING.search(text, labelled.end()):
        blanks = labelled.end() - 1 + len(written(text[0])) - len(named(text[0]))
        if blanks > 0:
            return f'{text[0]}{" " * blanks}{text[labelled.end():]}'
    parts = parts_of(text)
    fields = parts.label, parts.operation, parts.operands
    label, operation, operands = replaced(fields, written)
    spelled = parts._replace(label=label, operation=operation, operands=operands)
    return changed(spelled, *replaced(fields, named))


def stem_of(written):
    """What the name of a local label begins with."""
    return re.sub('[^A-Z0-9]', '', written.upper()).lstrip('0123456789') or 'L'
