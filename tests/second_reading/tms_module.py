"""The second checks of an assembly by the Editor/Assembler manual, and its module: values, ranges, placed words, and
the chain of the uses of each external name."""
import tms_assembler
import tms_operands
import tms_text
from tms_object import Module
from tms_text import ABSOLUTE, EXTERNAL, RELOCATABLE, Refused

HIGH, LOW, BOTH = 2, 1, 3


class Placing:
    """The words that are placed, by kind and even place: which bytes of each, its kind and its number."""

    def __init__(self, assembly):
        self.assembly = assembly
        self.words = {}
        self.uses = {name: (ABSOLUTE, 0) for name in assembly.refs}
        self.defs, self.entry = [], None

    def value(self, text, line):
        return tms_text.value(text, self.assembly.names, (line.kind, line.place & 0xFFFF))

    def take(self, line):
        """The second checks of one line."""
        if line.operation in OTHERS:
            OTHERS[line.operation](self, line)
        elif line.operation == 'DATA':
            self.put_words(line, data_words(self, line))
        else:
            here = line.kind, line.place & 0xFFFF
            self.put_words(line, tms_operands.words_of(line.operation, line.operands, self.assembly.names, here,
                                                       line.place))

    def put_words(self, line, words):
        """Places words; the word of an external name holds the place of that name's use before."""
        if not line.placed:
            return
        places = [(line.kind, line.place + 2 * number) for number in range(len(words))]
        self.room(place not in self.words for place in places)
        if any(place in self.words for place in places):
            raise Refused('overlap')
        for place, word in zip(places, words):
            if word[0] == EXTERNAL:
                name = word[1]
                word, self.uses[name] = self.uses[name], place
            self.words[place] = (BOTH, *word)

    def put_bytes(self, line, values):
        if not line.placed:
            return
        places = [(line.kind, line.place + number) for number in range(len(values))]
        self.room((kind, place & ~1) not in self.words for kind, place in {(k, at & ~1) for k, at in places})
        for (kind, place), byte in zip(places, values):
            which, shift = (LOW, 0) if place & 1 else (HIGH, 8)
            there, word_kind, word = self.words.get((kind, place & ~1), (0, ABSOLUTE, 0))
            if there & which:
                raise Refused('overlap')
            self.words[kind, place & ~1] = (there | which, word_kind, word | byte << shift)

    def room(self, news):
        """Refuses the line that places one word more than a module may have."""
        if len(self.words) + sum(news) > tms_assembler.MOST_WORDS:
            raise Refused('out of room')

    def module(self):
        """The module: its relocatable words in order of place, then its absolute ones."""
        ordered = sorted(self.words, key=lambda place: (place[0] != RELOCATABLE, place[1]))
        pieces = [(*place, *self.words[place][1:]) for place in ordered]
        refs = [(name, *self.uses[name]) for name in self.assembly.refs]
        return Module(self.assembly.module_name, self.assembly.reached, pieces, self.defs, refs, self.entry)


def data_words(placing, line):
    """The words of DATA. An external name's use at absolute place 0 is refused, since 0 ends a chain."""
    words = []
    for number, text in enumerate(line.operands):
        found = placing.value(text, line)
        if found[0] == EXTERNAL and line.placed and (line.kind, line.place + 2 * number) == (ABSOLUTE, 0):
            raise Refused('bad relocation')
        words.append(found)
    return words


def byte(placing, line):
    here = line.kind, line.place & 0xFFFF
    values = [tms_operands.absolute(text, placing.assembly.names, here) for text in line.operands]
    if any(255 < number < 0xFF80 for number in values):
        raise Refused('bad operand')
    placing.put_bytes(line, [number & 0xFF for number in values])


def text(placing, line):
    placing.put_bytes(line, line.operands[0].encode('latin-1'))


def definition(placing, line):
    for name in line.operands:
        if name not in placing.assembly.names:
            raise Refused('unknown name')
        found = placing.assembly.names[name]
        if found[0] == EXTERNAL:
            raise Refused('bad directive')
        placing.defs.append((name, *found))


def end(placing, line):
    for text in line.operands:
        placing.entry = placing.value(text, line)
        if placing.entry[0] == EXTERNAL:
            raise Refused('bad relocation')


OTHERS = {'BYTE': byte, 'TEXT': text, 'DEF': definition, 'END': end}


def module_of(assembly):
    """The module of the lines that the first checks took, or the first line that the second checks refuse."""
    placing = Placing(assembly)
    for line in assembly.kept:
        try:
            placing.take(line)
        except Refused as why:
            raise tms_assembler.LineRefused(line.where, str(why)) from None
    return placing.module()
