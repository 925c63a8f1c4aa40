"""A labelled source of an image or of an object, from its listing to the check."""
import dataclasses

from . import doubts
from .addresses import Addresses
from .calls import LIMIT, Rejected, report
from .check import OfImage, OfObject, checked
from .descent import Descent
from .header import Headers
from .image import MEMORY, Image
from .language import GPL, TMS
from .linked import Linked
from .listing import Listing
from .names import Named
from .source import Source
from .taken_gpl import Stacks

HEAD = '* {} bytes from >{:04X} on, labelled by ti_bench-label. The comment of a line has the address of its bytes.'
FLAT = 'no labels: the listing as it is; the same bytes'


@dataclasses.dataclass
class Wishes:
    """What a caller says of an image. A range is its first address and the one after its last."""
    entries: list = dataclasses.field(default_factory=list)       # addresses where code begins
    code: list = dataclasses.field(default_factory=list)          # ranges of instructions
    data: list = dataclasses.field(default_factory=list)          # ranges of data
    pointers: list = dataclasses.field(default_factory=list)      # ranges in which words and values are addresses
    tables: list = dataclasses.field(default_factory=list)        # ranges in which words are addresses of code
    covered: list = dataclasses.field(default_factory=list)       # addresses that a run executed
    names: list = dataclasses.field(default_factory=list)         # texts of names, each with the name of its file
    takes: dict = dataclasses.field(default_factory=dict)         # what subroutines take, by their addresses
    returns: dict = dataclasses.field(default_factory=dict)       # where calls came back, in sets by their addresses
    moved: set = None                                             # the words of an object that move, if that is known


@dataclasses.dataclass
class Labelled:
    """A source, what is doubtful in it, and a line about it."""
    text: bytes
    doubts: list
    summary: str


def labelled(program, lister, at, data, wishes):
    """The labelled source of bytes at an address, for `gdis` or `dis`, or of object text, for `link`."""
    language = GPL if lister == 'gdis' else TMS
    if lister == 'link':
        return _of_object(program, data, wishes)
    if at + len(data) > MEMORY:
        raise Rejected('past the end of memory')
    if not data:
        return Labelled(report(program, lister, f'{at:04X}'), _names_left_out(wishes), '0 bytes')
    labelling = Labelling(program, language, Image([(at, data)]), wishes)
    entry = next((it for it in labelling.entries if labelling.image.holds(it)), None)
    wanted = OfImage(program, language, labelling.image, entry)
    return labelling.made([], entry, wanted) or _flat(wanted, wishes)


def comes_back(program, data, at=0x6000, lister='gdis'):
    """What to say of an image: `labelled and the same`, or why not."""
    try:
        made = labelled(program, lister, at, data, Wishes())
    except Rejected as rejected:
        return str(rejected)
    return 'labelled and the same' if made.summary != FLAT else FLAT


def _of_object(program, text, wishes):
    found = Linked(program, text)
    if not found.image.segments:
        raise Rejected('an object without words')
    wishes = dataclasses.replace(wishes, entries=[found.entry, *wishes.entries], moved=found.moved)
    labelling = Labelling(program, TMS, found.image, wishes, found)
    names = labelling.defined[:256]
    left_out = [name for name, _ in found.names if name not in names]
    head = [f'       DEF  {",".join(names[i:i + 16])}' for i in range(0, len(names), 16)]
    for is_relocatable in [True, False] if found.moved is not None else [False]:
        wanted = OfObject(program, text, left_out, found.image, is_relocatable)
        made = labelling.made(head, found.entry, wanted, is_relocatable)
        if made:
            made.doubts[:0] = [f'the name {name} is left out: no source can have it' for name in left_out]
            made.summary += '; its code can be moved' if is_relocatable else '; its code stays at its addresses'
            return made
    raise Rejected('no source was found of which the program makes the same words')


def _names_left_out(wishes):
    """What is said of the files of names if a source has no names."""
    return [f'{name}: the names are left out' for name, _ in wishes.names]


def _flat(wanted, wishes):
    """The listing as it is, if no labelled source passed the check."""
    flat = wanted.flat()
    if len(flat) > LIMIT or wanted.made(flat) != wanted.wanted:
        raise Rejected('no source was found of which the program makes the same bytes')
    return Labelled(flat, _names_left_out(wishes), FLAT)


class Labelling:
    """The way from an image to its source."""

    def __init__(self, program, language, image, wishes, linked=None):
        self.program, self.language, self.image = program, language, image
        self.named = Named(program, language)
        self.defined = self.named.define(linked.names, linked.fixed) if linked else []
        for name, text in wishes.names:
            self.named.read(name, text)
        self.headers = Headers(image, len(language.filler))
        is_given = wishes.entries or wishes.code or self.headers.entries or wishes.covered
        self.guessed = [] if is_given else [image.segments[0][0]]
        self.wishes = dataclasses.replace(wishes, entries=wishes.entries + self.guessed,
                                          pointers=wishes.pointers + wishes.tables)
        self.entries = [*self.wishes.entries, *self.headers.entries, *wishes.covered]
        self.listing = Listing(program, language, image)

    def made(self, head, entry, wanted, is_relocatable=False):
        """The labelled source, with more lines at its head, or None if it does not pass the check."""
        descent, odd = self._descent()
        addresses = Addresses(self.image, self.language, descent, self.headers, self.named, self.wishes)
        head = [HEAD.format(self.image.size, self.image.segments[0][0]), *head]
        source = Source(addresses, self.named, head, entry, is_relocatable)
        text, lowered = checked(source, wanted)
        if text is None:
            return None
        outside = doubts.outside(self.image, self.wishes)
        return Labelled(text, [*outside, *doubts.found(addresses, self.listing, source.rows, odd)],
                        self._summary(addresses, source, lowered))

    def _descent(self):
        """What is code, and what was executed and is not listed as an instruction. What moves the stacks of a program
        is known only in the end, so there may be a second descent."""
        descent, odd = self._descended(Stacks())
        return self._descended(descent.stacks()) if descent.stacks() != Stacks() else (descent, odd)

    def _descended(self, stacks):
        """The same in a program whose stacks are known."""
        wishes = self.wishes
        closed = {at for low, high in wishes.data + wishes.tables for at in range(low, high)}
        closed |= {it for at in self.headers.words for it in (at, at + 1)}
        descent = Descent(self.listing, self.image, self.language, closed, wishes, stacks)
        odd = descent.executed(wishes.covered)
        for low, high in wishes.code:
            descent.sweep(low, high)
        tabled = [self.image.word(at) for low, high in wishes.tables for at in range(low, high - 1, 2)
                  if self.image.holds(at, 2)]
        descent.follow([*self.entries, *tabled])
        return descent, odd

    def _summary(self, addresses, source, lowered):
        code = sum(line.length for line in addresses.descent.code.values())
        parts = [f'{self.image.size} bytes, {code} of them code', f'{len(addresses.labels.made)} labels',
                 f'{sum(len(row.uses) for row in source.rows)} addresses by labels']
        others = [*addresses.descent.others.values()]
        names = ', '.join(sorted({it.operation for it in others}))
        length = sum(it.length for it in others)
        parts += [f'{length} bytes of operations that are left out ({names})'] if others else []
        parts += [f'no entry, taken from >{self.guessed[0]:04X} on'] if self.guessed else []
        parts += [f'{lowered} times a line was left as it is listed or as bytes'] if lowered else []
        parts += ['addresses left out for size'] if source.comments else []
        return '; '.join([*parts, 'the same bytes'])
