"""What takes up the room of a cartridge, and where its names are used."""
import bisect
import collections
import re
import typing

from expanding.lines import operation_of, parts_of
from lib.refusals import lines as lines_of
from packing.image import GROM

QUOTED = re.compile(r"'[^']*(?:'|\Z)")
WORD = re.compile(r'(?<![0-9A-Za-z>])[A-Za-z][0-9A-Za-z]*')
# how many bytes a GROM chip has; the other addresses of its GROM are not its own
CHIP = 0x1800


class Names(typing.NamedTuple):
    """The names of a source: each with its value and its line, and the lines that use it."""
    found: list
    uses: dict


def names_of(source, listing):
    """The names of a source by the lines of its text."""
    texts, known = lines_of(source.text), {name.name for name in listing.names}
    uses = collections.defaultdict(list)
    for line in listing.lines:
        text = texts[line.number - 1]
        if operation_of(text):
            bare = QUOTED.sub(' ', parts_of(text).operands)
            for word in sorted({word.upper() for word in WORD.findall(bare)} & known):
                uses[word].append(line.number)
    return Names(listing.names, uses)


def grom_rows(listing):
    """How full each GROM is."""
    placed = collections.defaultdict(set)
    for line in listing.lines:
        for at in range(line.address, line.address + len(line.data)):
            placed[at // GROM * GROM].add(at)
    for grom, found in sorted(placed.items()):
        above = sum(at - grom >= CHIP for at in found)
        more = f', {above:,} of them from >{grom + CHIP:04X} on' if above else ''
        yield (f'GROM >{grom:04X}: {len(found):,} of {GROM:,} bytes, {100 * len(found) // GROM}%, '
               f'up to >{max(found):04X}{more}')


def file_rows(source, listing):
    """The bytes that the lines of each file place, the most first: a line of a macro counts where it is used."""
    sizes = collections.Counter()
    for line in listing.lines:
        sizes[source.file(line.number)] += len(line.data)
    yield from (f'{size:6,}  {file}' for file, size in sizes.most_common() if size)


def label_rows(source, listing):
    """The bytes from each label to the next one, by address. Local labels belong to the label before them."""
    texts, own = lines_of(source.text), source.local_names
    labels = [name for name in listing.names
              if name.name not in own and operation_of(texts[name.line - 1]) != 'EQU']
    first = {}
    for name in labels:
        first.setdefault(name.value, name)
    starts, sizes = sorted(first), collections.Counter()
    for line in listing.lines:
        for at in range(line.address, line.address + len(line.data)):
            before = bisect.bisect(starts, at)
            sizes[starts[before - 1] if before else None] += 1
    if sizes[None]:
        yield f'{sizes[None]:6,}  before the first label'
    for start in starts:
        if sizes[start]:
            yield f'{sizes[start]:6,}  >{start:04X} {first[start].name:6} {source.where(first[start].line)}'


def unused_rows(source, names):
    """The names that no line uses, but for those of -D."""
    for name in names.found:
        if not names.uses.get(name.name) and not source.is_given(name.line):
            yield f'{source.where(name.line)}: nothing uses {source.spelled(name.name)}'


def macro_rows(source, wanted):
    """The same of a macro: where it is defined, and its uses, also those in other macros."""
    macro = source.made.macros.get(wanted.upper()) if source.made else None
    if macro:
        takes = f' of {", ".join(macro.parameters)}' if macro.parameters else ''
        yield f'{macro.file}:{macro.first - 1}: {macro.name} is a macro{takes}'
        yield from (f'{place}: {text.strip()}' for name, place, text in source.made.uses if name == macro.name)


def use_rows(source, names, wanted):
    """The lines that use a name or a macro, each with its text; none if the source has no such name."""
    yield from macro_rows(source, wanted)
    for name in names.found:
        if wanted.upper() in (name.name, source.spelled(name.name).upper()):
            yield f'{source.where(name.line)}: {source.spelled(name.name)} is >{name.value:04X}'
            for number in names.uses.get(name.name, []):
                yield f'{source.where(number)}: {source.line(number).strip()}'
