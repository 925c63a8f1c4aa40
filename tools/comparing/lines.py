"""Which lines and names of two sources are the same, so that addresses of one are found in the other.

Lines that place bytes or give a name its value are aligned by their operation and operands. A name that only one of the
sources has may be a renamed one: in its place any such name counts as the same.
"""
import bisect
import difflib
import re
import typing

from expanding.lines import operation_of, parts_of
from profiling.authors import GplAuthor
from stepping.subject import Subject

WORD = re.compile(r"'[^']*(?:'|\Z)|(?<![0-9A-Za-z>])[A-Za-z][0-9A-Za-z]*")
UNSHARED = '#'


class Side:
    """A source with its listing, and what the author wrote for its lines."""

    def __init__(self, subject: Subject):
        self.source, self.listing = subject
        self.author = GplAuthor(self.source, self.listing)
        self.names = {name.name: self.source.spelled(name.name).upper() for name in self.listing.names}
        self.values = {self.names[name.name]: name.value for name in self.listing.names}
        self.placing = sorted((line for line in self.listing.lines if line.data), key=lambda it: it.address)
        self.starts = [line.address for line in self.placing]
        self.keyed = [line for line in self.listing.lines if line.data or operation_of(text_of(line)) == 'EQU']

    def line_at(self, address):
        """The line that places the byte at an address, or None."""
        before = bisect.bisect_right(self.starts, address) - 1
        line = self.placing[before] if before >= 0 else None
        return line if line and address < line.address + len(line.data) else None


class Key(typing.NamedTuple):
    """What lines are aligned by: label, operation and operands, with one sign for all names that are not shared."""
    label: str
    operation: str
    operands: str


def text_of(line):
    return line.text.decode('latin-1')


def key_of(side, line, shared):
    """The key of a line."""
    def named(found):
        name = side.names.get(found[0].upper())
        return found[0] if name is None else name if name in shared else UNSHARED
    parts = parts_of(text_of(line))
    label = side.names.get(parts.label.upper(), '')
    return Key(label if label in shared else UNSHARED * bool(label), parts.operation.upper(),
               WORD.sub(named, parts.operands))


def aligned(old, new):
    """Pairs of the numbers of two rows of keys, in order. Where keys differ, those of one operation are paired."""
    first = next((at for at, both in enumerate(zip(old, new)) if both[0] != both[1]), min(len(old), len(new)))
    last, most = 0, min(len(old), len(new)) - first
    while last < most and old[-1 - last] == new[-1 - last]:
        last += 1
    yield from ((at, at) for at in range(first))
    matcher = difflib.SequenceMatcher(None, old[first:len(old) - last], new[first:len(new) - last])
    for kind, a, b, c, d in matcher.get_opcodes():
        if kind == 'equal':
            yield from zip(range(first + a, first + b), range(first + c, first + d))
        elif kind == 'replace':
            yield from changed(old, new, range(first + a, first + b), range(first + c, first + d))
    yield from ((len(old) - at, len(new) - at) for at in range(last, 0, -1))


def changed(old, new, there, here):
    """Pairs of lines that have one operation, of those that differ."""
    marks, others = ([rows[at].operation for at in part] for rows, part in ((old, there), (new, here)))
    for block in difflib.SequenceMatcher(None, marks, others).get_matching_blocks():
        yield from zip(there[block.a:block.a + block.size], here[block.b:block.b + block.size])


class Pairs:
    """The lines of two sources that are the same, and the names of the old one by those of the new one."""

    def __init__(self, old, new):
        self.old, self.new = old, new
        shared = set(old.values) & set(new.values)
        keys = [[key_of(side, line, shared) for line in side.keyed] for side in (old, new)]
        self.there, self.named = {}, {name: name for name in shared}
        for a, b in aligned(*keys):
            line, other = old.keyed[a], new.keyed[b]
            if line.data and other.data:
                self.there[line.number] = other
            names = [parts_of(text_of(it)).label.upper() for it in (line, other)]
            if names[0] and names[1]:
                self.named.setdefault(old.names[names[0]], new.names[names[1]])
        self.here = {other.number for other in self.there.values()}
        self.known = {}

    def is_old_alone(self, address):
        """Whether the line at an address of the old source is not in the new one."""
        line = self.old.line_at(address)
        return line is not None and line.number not in self.there

    def is_new_alone(self, address):
        """The same of the new source."""
        line = self.new.line_at(address)
        return line is not None and line.number not in self.here

    def are_same(self, old, new):
        """Whether an address of the old source is the same place as one of the new source: in the same line, or after
        the same line."""
        if (old, new) not in self.known:
            self.known[old, new] = self.are_in_same(old, new) or self.are_after_same(old, new)
        return self.known[old, new]

    def are_in_same(self, old, new):
        line, other = self.old.line_at(old), self.new.line_at(new)
        if line is None or other is None:
            return line is other and old == new
        return self.there.get(line.number) is other and old - line.address == new - other.address

    def are_after_same(self, old, new):
        line, other = self.old.line_at(old - 1), self.new.line_at(new - 1)
        return bool(line and other and self.there.get(line.number) is other
                    and old == line.address + len(line.data) and new == other.address + len(other.data))
