"""Object text as it is read, by the Editor/Assembler manual: plain lines or records of 80 characters, and the
compressed form with binary fields, whose rules are the profile's."""
import re

from tms_object import DEF_TAGS, ENTRY_TAGS, PLACE_TAGS, REF_TAGS, WORD_TAGS, Module
from tms_text import RELOCATABLE, lines

RECORD = 80
MOST_MODULES = 64
MOST_NAMES = 256
MOST_WORDS = 32768
COMPRESSED = 1

DIGITS = re.compile('[0-9A-Fa-f]{4}', re.ASCII)
DIGIT = re.compile('[0-9A-Fa-f]', re.ASCII)
KINDS = {tag: kind for tags in (PLACE_TAGS, WORD_TAGS, DEF_TAGS, REF_TAGS, ENTRY_TAGS) for kind, tag in tags.items()}
PLACES, WORDS, DEFS, REFS, ENTRIES = (set(tags.values())
                                      for tags in (PLACE_TAGS, WORD_TAGS, DEF_TAGS, REF_TAGS, ENTRY_TAGS))


class Bad(Exception):
    """A bad place of a line, and why."""


class TextRefused(Exception):
    """A bad place: its line and why."""


def records(data):
    """The lines of an object text, as text, and whether it is compressed."""
    if data[:1] == bytes([COMPRESSED]):
        return [data[at:at + RECORD].decode('latin-1') for at in range(0, len(data), RECORD)], True
    if data and b'\n' not in data and len(data) % RECORD == 0:
        return [data[at:at + RECORD].decode('latin-1') for at in range(0, len(data), RECORD)], False
    return lines(data), False


class Reader:
    """The modules that are read, and the one that is open."""

    def __init__(self, compressed):
        self.compressed = compressed
        self.first_tag = '\x01' if compressed else '0'
        self.modules = []
        self.open = None
        self.line, self.at = '', 0

    def number(self):
        """A field of four digits, or of two bytes in the compressed form."""
        if self.compressed:
            if self.at + 2 > len(self.line):
                raise Bad('short field')
            self.at += 2
            return ord(self.line[self.at - 2]) << 8 | ord(self.line[self.at - 1])
        match = DIGITS.match(self.line, self.at)
        if not match:
            for character in self.line[self.at:self.at + 4]:
                if not DIGIT.match(character):
                    raise Bad('bad digit')
            raise Bad('short field')
        self.at += 4
        return int(match.group(), 16)

    def characters(self, count, fits):
        """A field of characters, each of which must fit after those before it."""
        field = self.line[self.at:self.at + count]
        for number, character in enumerate(field):
            if not fits(field[:number], character):
                raise Bad('bad tag')
        if len(field) < count:
            raise Bad('short field')
        self.at += count
        return field

    def symbol(self):
        """A DEF or REF name of six characters, the last ones perhaps blanks, but not all."""
        found = self.characters(6, symbol_fits).rstrip(' \t')
        if not found:
            raise Bad('bad tag')
        return found

    def read(self, line):
        """Reads the groups of one line up to F or ':'."""
        self.line, self.at = line, 0
        while self.at < len(line):
            tag = line[self.at]
            self.at += 1
            if self.open is None:
                self.begin(tag)
            elif tag == 'F':
                return
            elif tag == ':':
                self.close()
                return
            else:
                self.group(tag)

    def begin(self, tag):
        """The first group of a module: its length and its name."""
        if tag != self.first_tag:
            raise Bad('bad tag')
        if len(self.modules) == MOST_MODULES:
            raise Bad('too many')
        size = self.number()
        name = self.characters(8, lambda before, character: ' ' <= character <= '~')
        self.open = Module(name, size, [], [], [], None)
        self.place = RELOCATABLE, 0

    def close(self):
        """The end of a module stands first in its line."""
        if self.at != 1:
            raise Bad('bad tag')
        self.modules.append(self.open)
        self.open = None

    def group(self, tag):
        module = self.open
        if tag in WORDS:
            if len(module.pieces) == MOST_WORDS:
                raise Bad('too many')
            module.pieces.append((*self.place, KINDS[tag], self.number()))
            self.place = self.place[0], self.place[1] + 2 & 0xFFFF
        elif tag in PLACES:
            self.place = KINDS[tag], self.number() & 0xFFFE
        elif tag in DEFS or tag in REFS:
            names = module.defs if tag in DEFS else module.refs
            if len(names) == MOST_NAMES:
                raise Bad('too many')
            number = self.number()
            names.append((self.symbol(), KINDS[tag], number))
        elif tag in ENTRIES and not module.entry:
            self.open = module._replace(entry=(KINDS[tag], self.number()))
        elif tag == '7':
            self.checksum()
        elif tag == '8':
            self.number()
        else:
            raise Bad('bad tag')

    def checksum(self):
        """The checksum of the line's characters from the first through tag 7."""
        computed = -sum(self.line[:self.at].encode('latin-1')) & 0xFFFF
        found = self.number()
        if found != computed:
            raise Bad(f'checksum >{found:04X}, computed >{computed:04X}')


def symbol_fits(before, character):
    """Whether a character can stand in a name field: after a blank only blanks."""
    return character in ' \t' or '!' <= character <= '~' and not before.endswith((' ', '\t'))


def modules(data):
    """The modules of an object text, or its first bad place."""
    found, compressed = records(data)
    reader, last = Reader(compressed), 0
    for number, line in enumerate(found, 1):
        if not line.strip(' \t'):
            continue
        last = number
        try:
            reader.read(line)
        except Bad as why:
            raise TextRefused(number, str(why)) from None
    if reader.open:
        raise TextRefused(last, 'no end')
    return reader.modules
