"""Which cells of two runs are the same, and which values.

A cell with a name is the same as that of the name in the other source, wherever it is; others are the same by their
addresses, or by the numbers that all lines have in their place. A word that is an address of the same line, or the
offset of the same cell, is the same word.
"""
import collections
import re

from comparing.lines import text_of
from expanding.lines import operation_of, parts_of
from stepping.places import CELLS, CELLS_END

# the cells from here on have meanings of their own, so a name before them does not reach into them
SYSTEM = 0x8370
STATUS = 0x837C
# an address of a cell as a number, and a text in quotes
NUMBER, QUOTED = re.compile(r'>(83[0-9A-Fa-f]{2})(?![0-9A-Fa-f])'), re.compile(r"'[^']*(?:'|\Z)")
HEX = re.compile(r'>([0-9A-F]+)')


def numbers_in(line):
    """The addresses of cells that a line of code has as numbers."""
    bare = QUOTED.sub('', parts_of(text_of(line)).operands) if line.data else ''
    return [int(digits, 16) for digits in NUMBER.findall(bare)]


def cells_of(side):
    """The first of cells that belong together, each with its name, if it has one, and how many there are up to the next
    that is named or written as a number."""
    found = {at: '' for line in side.listing.lines for at in numbers_in(line)}
    named = set()
    for name in side.listing.names:
        is_cell = CELLS <= name.value < CELLS_END
        if is_cell and name.value not in named and operation_of(text_of(side.listing.lines[name.line - 1])) == 'EQU':
            named.add(name.value)
            found[name.value] = side.names[name.name]
    starts = sorted(at for at in found if at < CELLS_END)
    for at, after in zip(starts, [*starts[1:], CELLS_END]):
        yield at, found[at], (min(after, SYSTEM) if at < SYSTEM else after) - at


def moved_numbers(pairs):
    """The cells that lines of both sources write as numbers, by those that the new source has in their place: at least
    two lines have the pair, and no line has one without the other."""
    there, back, times = (collections.defaultdict(set), collections.defaultdict(set), collections.Counter())
    for line in pairs.old.listing.lines:
        if line.number in pairs.there:
            both = numbers_in(line), numbers_in(pairs.there[line.number])
            for at, other in set(zip(*both)) if len(both[0]) == len(both[1]) else ():
                there[at].add(other)
                back[other].add(at)
                times[at] += 1
    return {at: other for at, others in there.items() for other in others
            if len(others) == len(back[other]) == 1 and (times[at] > 1 or at == other)}


def is_unmoved(at, named, there):
    """Whether a cell has no name, or one whose first cell is where it is in the other source."""
    first = at - named[at][1] if at in named else None
    return first is None or there.get(first) == first


class Places:
    """The places of two runs: cells, video memory and video registers."""

    def __init__(self, pairs):
        self.pairs = pairs
        old, new = list(cells_of(pairs.old)), list(cells_of(pairs.new))
        by_name, moved = {name: (at, size) for at, name, size in new if name}, moved_numbers(pairs)
        # a cell that one source writes as a number, and the other by a name of its own
        shared = {there for name, there in pairs.named.items() if there in by_name}
        by_number = {at: (at, size) for at, name, size in new if name not in shared}
        self.named, self.new_of = {}, {}
        for at, name, size in old:
            self.named.update((at + more, (name, more)) for more in range(size) if name)
            first, most = by_name.get(pairs.named.get(name)) or by_number.get(
                at if name else moved.get(at, at)) or (0, 0)
            self.new_of.update((at + more, first + more) for more in range(min(size, most)))
        self.old_of = {there: at for at, there in self.new_of.items()}
        named_there = {at + more: (name, more) for at, name, size in new for more in range(size) if name}
        for at in range(CELLS, CELLS_END):
            if (at not in self.new_of and at not in self.old_of and is_unmoved(at, self.named, self.new_of)
                    and is_unmoved(at, named_there, self.old_of)):
                self.new_of[at] = self.old_of[at] = at
        self.alone = [[name for at, name, _ in side if name and at not in there]
                      for side, there in ((old, self.new_of), (new, self.old_of))]

    def there(self, at):
        """The place in the new run of a place of the old one, None if it has none."""
        return self.new_of.get(at) if CELLS <= at < CELLS_END else at

    def back(self, at):
        """The same the other way round."""
        return self.old_of.get(at) if CELLS <= at < CELLS_END else at

    def are_same(self, old, at, new, there):
        """Whether the byte at a place of a memory is the same as that at a place of the other one."""
        if old[at] == new[there]:
            return True
        return at < CELLS_END and any(
            self.are_words(int.from_bytes(old[at - back:at - back + 2], 'big'),
                           int.from_bytes(new[there - back:there - back + 2], 'big')) for back in (0, 1))

    def are_words(self, old, new):
        """Whether two words are the same: addresses of GROM or of cells, or offsets of cells."""
        return old == new or self.pairs.are_same(old, new) or any(
            old + base in self.new_of and self.new_of[old + base] == new + base for base in (0, CELLS))

    def are_texts(self, old, new):
        """Whether two instructions, as the program shows them, are the same."""
        if old == new:
            return True
        numbers = [HEX.findall(text) for text in (old, new)]
        return HEX.sub('>', old) == HEX.sub('>', new) and all(
            len(a) == len(b) and (a == b or len(a) == 4 and self.are_words(int(a, 16), int(b, 16)))
            for a, b in zip(*numbers))
