"""The header of a cartridge: >AA at the first address of a block of 8,192 bytes, and then the addresses of lists.

An entry of a list is the address of the next one, the entry point, and a name after its length. All lists are read so:
a list of another form would cost a good listing, and never a byte.
"""
BLOCK, MARK, LONGEST_NAME = 0x2000, 0xAA, 32
LISTS = {4: 'power-up', 6: 'programs', 8: 'devices', 10: 'subprograms'}


class Headers:
    """The words of an image's headers that are addresses, each with what it is, the points at which programs are
    entered, and the places of the names."""

    def __init__(self, image, step):
        """Words and entries stand at multiples of `step`."""
        self.image, self.step = image, step
        self.words, self.entries, self.names = {}, [], []
        for block in range(0, 0x10000, BLOCK):
            if image.holds(block, 12) and image.memory[block] == MARK:
                for offset, what in LISTS.items():
                    self._list(block + offset, what)

    def _list(self, at, what):
        """Follows a list from the word that has the address of its first entry."""
        seen = set()
        while at not in seen and self._take(at, what):
            seen.add(at)
            at, what = self.image.word(at), 'next'
            if not at or not self._take(at + 2, 'entry'):
                return
            entry = self.image.word(at + 2)
            if self.image.holds(entry) and entry % self.step == 0 and entry not in self.entries:
                self.entries.append(entry)
            self._name(at + 4)

    def _take(self, at, what):
        """Whether a word may stand here; words do not overlap."""
        is_free = self.image.holds(at, 2) and at % self.step == 0 and not self.words.keys() & {at - 1, at + 1}
        if is_free:
            self.words.setdefault(at, what)
        return is_free

    def _name(self, at):
        """A name is text even if it is short."""
        length = self.image.memory[at] if self.image.holds(at) else 0
        if 0 < length <= LONGEST_NAME and self.image.holds(at + 1, length):
            if all(0x20 <= byte < 0x7F for byte in self.image.bytes(at + 1, at + 1 + length)):
                self.names.append((at + 1, at + 1 + length))
