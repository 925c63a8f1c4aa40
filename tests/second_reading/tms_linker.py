"""The linking loader by the Editor/Assembler manual: where modules lie, how external names are filled in, and what is
refused, in the profile's order."""
import typing

from tms_text import RELOCATABLE

FIRST = 0xA000

Linked = typing.NamedTuple('Linked', [('words', dict), ('entry', int), ('names', list)])


class LinkRefused(Exception):
    """A refusal of modules that were read."""


def bases(modules):
    """Where the modules' relocatable code goes: each to the first even address after the one before it."""
    found, base = [], FIRST
    for module in modules:
        found.append(base)
        base += module.size + module.size % 2
    return found


def spot(kind, number, base):
    """The address of a number; only the range of a word's place is seen before it keeps 16 bits."""
    return number + base if kind == RELOCATABLE else number


def names_of(placed):
    """The DEF names in order, each with its value."""
    found = {}
    for module, base in placed:
        for name, kind, number in module.defs:
            if name in found:
                raise LinkRefused(f'duplicate def {name}')
            found[name] = spot(kind, number, base) & 0xFFFF
    return found


def words_of(placed):
    """The loaded words by address. All places are seen before a word that would lie on another."""
    places = [(spot(kind, at, base), spot(word_kind, word, base) & 0xFFFF)
              for module, base in placed for kind, at, word_kind, word in module.pieces]
    for address, _ in places:
        if not (0xA000 <= address <= 0xFFFE or 0x0002 <= address <= 0x1FFE or 0x2000 <= address <= 0x3FFE):
            raise LinkRefused(f'outside memory >{address:04X}')
    found = {}
    for address, word in places:
        if address in found:
            raise LinkRefused(f'overlap at >{address:04X}')
        found[address] = word
    return found


def chains_of(placed, words):
    """The places of each REF name's uses: from the last use on, each holds the one before it, up to 0."""
    found, seen = [], set()
    for module, base in placed:
        for name, kind, number in module.refs:
            places, at = [], spot(kind, number, base) & 0xFFFF
            while at:
                if at not in words:
                    raise LinkRefused(f'chain outside >{at:04X}')
                if at in seen:
                    raise LinkRefused(f'chain cycle >{at:04X}')
                seen.add(at)
                places.append(at)
                at = words[at]
            found.append((name, places))
    return found


def linked(modules):
    """The linked memory of modules, or the first refusal."""
    placed = list(zip(modules, bases(modules)))
    names = names_of(placed)
    words = words_of(placed)
    chains = chains_of(placed, words)
    for name, places in chains:
        if name not in names:
            raise LinkRefused(f'unresolved {name}')
        words.update((place, names[name]) for place in places)
    for module, base in placed:
        if module.entry:
            return Linked(words, spot(*module.entry, base) & 0xFFFF, list(names.items()))
    raise LinkRefused('no entry')


def listing(found):
    """The entry, the names, and the words in order of address, up to eight in a row."""
    lines = [f'entry >{found.entry:04X}', *(f'{name} >{number:04X}' for name, number in found.names)]
    following = None
    for address in sorted(found.words):
        if address != following or count == 8:
            lines.append(f'>{address:04X}')
            count = 0
        lines[-1] += f' {found.words[address]:04X}'
        count += 1
        following = address + 2
    return ''.join(f'{line}\n' for line in lines).encode('latin-1')
