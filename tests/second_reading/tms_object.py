"""The module of an assembly, and its object text as the Editor/Assembler manual has it."""
import typing

from tms_text import ABSOLUTE, RELOCATABLE

Module = typing.NamedTuple('Module', [
    ('name', str),
    ('size', int),       # of the relocatable code, in bytes
    ('pieces', list),    # (kind of place, place, kind of word, word)
    ('defs', list),      # (name, kind, value)
    ('refs', list),      # (name, kind, place of the last use)
    ('entry', tuple),    # (kind, value), or None
])

FULL_LINE = 70
PADDED = 76

PLACE_TAGS = {ABSOLUTE: '9', RELOCATABLE: 'A'}
WORD_TAGS = {ABSOLUTE: 'B', RELOCATABLE: 'C'}
DEF_TAGS = {ABSOLUTE: '6', RELOCATABLE: '5'}
REF_TAGS = {ABSOLUTE: '4', RELOCATABLE: '3'}
ENTRY_TAGS = {ABSOLUTE: '1', RELOCATABLE: '2'}


def checksum(text):
    """The two's complement, in 16 bits, of the sum of the characters."""
    return -sum(text.encode('latin-1')) & 0xFFFF


class Lines:
    """Object lines as they are filled."""

    def __init__(self):
        self.whole = []
        self.line = ''

    def group(self, text):
        """Puts a group on the line, or on a new one where it does not fit; says whether it began one."""
        new = len(self.line) + len(text) > FULL_LINE
        if new:
            self.end()
        self.line += text
        return new

    def end(self):
        text = self.line + '7'
        self.close(f'{text}{checksum(text):04X}F')
        self.line = ''

    def close(self, text):
        self.whole.append(f'{text:<{PADDED}}{(len(self.whole) + 1) % 10000:04d}\n')


def write_words(lines, pieces):
    """The groups of words, each with an address group before it where it is not the place after the word before it on
    the same line; an address group and its word are not parted."""
    following = None
    for kind, at, word_kind, word in pieces:
        text = f'{WORD_TAGS[word_kind]}{word:04X}'
        address = f'{PLACE_TAGS[kind]}{at:04X}'
        if following != (kind, at):
            lines.group(address + text)
        elif len(lines.line) + len(text) > FULL_LINE:
            lines.end()
            lines.group(address + text)
        else:
            lines.line += text
        following = (kind, at + 2)


def text_of(module):
    """The object text of a module: length and name, words, DEF names, REF names, entry."""
    lines = Lines()
    lines.group(f'0{module.size:04X}{module.name:<8}')
    write_words(lines, module.pieces)
    for tags, names in ((DEF_TAGS, module.defs), (REF_TAGS, module.refs)):
        for name, kind, number in names:
            lines.group(f'{tags[kind]}{number:04X}{name:<6}')
    if module.entry:
        kind, number = module.entry
        lines.group(f'{ENTRY_TAGS[kind]}{number:04X}')
    lines.end()
    lines.close(':')
    return ''.join(lines.whole).encode('latin-1')
