"""The interpreter's listing, as it stands in the source of native_interp, and its parts by name."""
import re

from lib.repository import TOP, read_text

from .assembler import Line, assembled

FOLDER = TOP / 'crates/native_interp/src/source'
GROUPS = ['tables', 'routines', 'operations', 'flow', 'copy']


class Part:
    """A label that proofs and code speak of, with its words up to the next that has a list of its own."""

    def __init__(self, text, group):
        self.label, self.list, self.note, self.documentation = (it.strip() for it in text.split('|'))
        self.group, self.place, self.lines = group, 0, []

    @property
    def words(self):
        return [word for line in self.lines for word in line.words]

    @property
    def heading(self):
        if not self.label.isupper() or self.label in ('ORIGIN', 'TABLE', 'OPTAB'):
            return self.note
        return f'{self.label}, {self.note}' if self.note else self.label


class Group:
    """The parts of one file of lists."""

    def __init__(self, text):
        self.file, self.prefix, self.name, self.about, self.heading = (it.strip() for it in text.strip('[]').split('|'))
        self.parts = []


class Listing:
    """All lines with their places and words, the names, and the parts in their groups."""

    def __init__(self):
        self.lines = [Line(text, group) for group in GROUPS
                      for text in re.findall(r'^    "(.*)",$', read_text(FOLDER / f'{group}.rt'), re.M)]
        self.names = assembled(self.lines)
        self.words = [word for line in self.lines for word in line.words]
        self.origin = next(line.place for line in self.lines if line.words)
        self.behind = self.origin + 2 * len(self.words)
        self.groups = []
        for text in read_text(TOP / 'tools/listing/parts.txt').split('\n'):
            if text.startswith('['):
                self.groups.append(Group(text))
            elif text and not text.startswith('#'):
                self.groups[-1].parts.append(Part(text, self.groups[-1]))
        self.parts = [part for group in self.groups for part in group.parts]
        self.share_lines()

    def share_lines(self):
        """Gives each part its place, and each part with a list its lines."""
        for part in self.parts:
            part.place = self.origin if part.label == 'ORIGIN' else self.names[part.label]
        listed = [part for part in self.parts if part.list != '-']
        for part, behind in zip(listed, [it.place for it in listed[1:]] + [self.behind]):
            part.lines = [line for line in self.lines if line.words and part.place <= line.place < behind]
        if [word for part in listed for word in part.words] != self.words:
            raise SystemExit('tools/interpreter: tools/listing/parts.txt does not follow the listing')

    def part(self, label):
        return next(part for part in self.parts if part.label == label)

    def label_at(self, place):
        """The label of a place, or the label before it with the number of words from there."""
        for label, at in self.names.items():
            if at == place and at >= self.origin:
                return label
        before = max((at, label) for label, at in self.names.items() if self.origin <= at < place)
        return f'{before[1]}+{(place - before[0]) // 2}'
