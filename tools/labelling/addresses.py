"""Which numbers of an image are addresses of it, and which only might be."""
import collections
import re

from .language import NUMBER, Reference
from .names import Labels

GROM = 0x2000
KINDS = ('call', 'branch', 'vector')
Sorted = collections.namedtuple('Sorted', 'sure doubtful')


class Addresses:
    """The addresses in the instructions and in the words of data, with the labels of all that are taken as such.

    `of` has for each instruction with an address its references, those that are sure and those that might be; `words`
    the places of the words of data that are addresses.
    """

    def __init__(self, image, language, descent, headers, named, wishes):
        self.image, self.language, self.descent = image, language, descent
        self.headers, self.wishes = headers, wishes
        self.owner = descent.owner
        self.wished = {at for low, high in wishes.pointers for at in range(low, high)}
        self.named_places = {at for at, _ in named.places}
        self.of = self._of_instructions()
        self.words = self._words()
        self.labels = Labels(named, self.owner, image)
        self._want()
        self.labels.settle()

    def _of_instructions(self):
        found = {}
        for at, line in self.descent.code.items():
            if self.wishes.moved is None:
                sure, doubtful = self._guessed(at, line)
            else:
                sure, doubtful = self._moving(at, line), []
            if sure or doubtful:
                found[at] = Sorted(sure, doubtful)
        return found

    def _guessed(self, at, line):
        """The numbers of an instruction that are taken as addresses of the image, and those that only might be."""
        held = [it for it in line.references if self.image.places[it.address] or it.address in self.named_places]
        if held and self.wished and not self.wished.isdisjoint(range(at, at + line.length)):
            return held, []
        return [it for it in held if it.kind != 'value'], [it for it in held if it.kind == 'value']

    def _moving(self, at, line):
        """The numbers of an instruction that are places in the code of an object: the target of a jump, and those that
        move, each of which is a word of its own after the first."""
        if line.operation in self.language.near:
            return list(line.references)
        kinds = {it.start: it.kind for it in line.references}
        numbers = [Reference(*it.span(), int(it[0][1:], 16), kinds.get(it.start(), 'value'))
                   for it in re.finditer(NUMBER, line.text)]
        return [it for i, it in enumerate(numbers) if at + 2 + 2 * i in self.wishes.moved]

    def _words(self):
        """The words of data that are addresses. They become one row each."""
        vectors = {it.address + more for line in self.descent.code.values()
                   for it in line.leads if it.kind == 'vector' for more in (0, 2)}
        wished = {at for low, high in self.wishes.pointers for at in range(low, high - 1, 2)}
        others = {at for it in self.descent.others.values() for at in it.words}
        places = self.headers.words.keys() | wished | vectors | others
        places = places if self.wishes.moved is None else self.wishes.moved
        found = set()
        for at in sorted(places):
            is_free = self.image.holds(at, 2) and self.owner[at] < 0 and self.owner[at + 1] < 0
            is_torn = at % 2 if self.language.lister == 'dis' else at % GROM == GROM - 1
            if is_free and not is_torn:
                self.owner[at] = self.owner[at + 1] = at
                found.add(at)
        return found

    def _want(self):
        for at, references in self.of.items():
            for it in references.sure:
                self.labels.want(it.address, it.kind if it.kind in KINDS else self._kind(it.address))
        for at in self.words:
            value = self.image.word(at)
            if value or at not in self.headers.words:      # 0 ends a list
                self.labels.want(value, self._kind(value))
        for at in [*self.headers.entries, *self.wishes.entries]:
            if self.image.places[at]:
                self.labels.want(at, 'entry')

    def _kind(self, address):
        return 'branch' if address in self.descent.code else 'data'
