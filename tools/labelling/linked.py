"""Objects: their linked memory, and which of it moves with their code.

All of it comes from what `link` lists of an object: alone, after a module that leaves some bytes free, and before one
of a single word, which is placed where the object's code ends.
"""
import pathlib
import tempfile

from .calls import Rejected, report
from .image import RELOCATABLE, Image, of_link

APART = 0x100
MODULES = {'GAP': f' BSS {APART}\n', 'LAST': ' DATA 0\n'}


def links(program, text, orders):
    """What `link` lists of an object, OBJECT, and other modules in each of some orders; None if it is rejected."""
    found = []
    with tempfile.TemporaryDirectory() as folder:
        pathlib.Path(folder, 'OBJECT').write_bytes(text)
        for name, source in MODULES.items():
            pathlib.Path(folder, name).write_bytes(report(program, 'asm', given=source.encode()))
        for order in orders:
            try:
                found.append(report(program, 'link', *order, folder=folder))
            except Rejected:
                found.append(None)
    return found


class Linked:
    """An object as it is linked: its entry, its names and its image. `moved` has the addresses of the words that are
    places in its code, and is None if nothing moves; `fixed` are the names that do not move."""

    def __init__(self, program, text):
        alone = report(program, 'link', given=text)
        apart, before = links(program, text, [['GAP', 'OBJECT'], ['OBJECT', 'LAST']])
        self.entry, self.names, self.image = of_link(alone)
        self.moved, self.fixed = None, set()
        if apart not in (None, alone):
            _, later_names, later = of_link(apart)
            self.fixed = {name for name, at in self.names if (name, at) in later_names}
            code = [(start, end) for start, end in self.image.segments
                    if start >= RELOCATABLE and (start + APART, end + APART) in later.segments]
            self.moved = {at for start, end in self.image.segments for at in range(start, end, 2)
                          if self._moves(later, at, APART * ((start, end) in code))}
            self._find_gaps(code, of_link(before)[2] if before else self.image)

    def _moves(self, later, at, apart):
        """Whether the word at an address is a place in relocatable code."""
        return later.holds(at + apart, 2) and later.word(at + apart) == (self.image.word(at) + APART) & 0xFFFF

    def _find_gaps(self, code, before):
        """Finds what BSS leaves free: before the first word of the code, between two, and up to its end, where the next
        module begins."""
        last = [end - 2 for _, end in before.segments if not self.image.holds(end - 2)]
        ends = [start for start, _ in code[1:]] + last[:1]
        segments = [(start, self.image.bytes(start, end)) for start, end in self.image.segments]
        gaps = [(RELOCATABLE, start) for start, _ in code[:1] if start != RELOCATABLE]
        gaps += [(end, following) for (_, end), following in zip(code, ends)]
        self.image = Image(segments, gaps, [RELOCATABLE] + [start for start, _ in code])


def without(listed, names):
    """What `link` lists, without some names."""
    names = {name.encode('latin-1') for name in names}
    return b''.join(line for i, line in enumerate(listed.splitlines(keepends=True))
                    if i == 0 or line.rpartition(b' >')[0] not in names)
