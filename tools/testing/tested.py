"""The source under test: its lines, its names, its image, and how its addresses are shown."""
import bisect

from expanding.lines import operation_of
from expanding.show import within
from lib.refusals import lines as lines_of
from stepping.listing import image_of
from stepping.places import REGISTERS, VIDEO

GROM = 0x2000
GROMS = range(0, 0x10000, GROM)


class Tested:
    """A source that the program accepts, as it lists it, and the image that it is assembled to."""

    def __init__(self, source, listing):
        self.source, self.listing, self.image = source, listing, image_of(listing)
        self.lines = {at: line for line in listing.lines for at in range(line.address, line.address + len(line.data))}
        self.names = source.names(listing)
        # the names of values, and those of places in the program
        self.values, self.own_labels, texts = [], [], lines_of(source.text)
        for name in listing.names:
            (self.values if operation_of(texts[name.line - 1]) == 'EQU' else self.own_labels).append(name)
        labels = {it for name in self.own_labels for it in (name.name, source.spelled(name.name).upper())}
        self.labels = {name: value for name, value in self.names.items() if name in labels}

    @property
    def first(self):
        """The address of the first byte of the image."""
        return min(self.lines, default=0)

    def label_after(self, line):
        """The label that the routine of a test has which names none: the next one after its line in the source."""
        if line.of_source is None:
            return None
        found = [name for name in self.own_labels if name.name not in self.source.local_names]
        at = bisect.bisect([name.line for name in found], line.of_source)
        return found[at].name if at < len(found) else None

    def free_grom(self):
        """The first address of the highest GROM without bytes, or None."""
        used = {at // GROM * GROM for at in self.lines}
        return next((grom for grom in reversed(GROMS) if grom not in used), None)

    def text_before_end(self):
        """The text of the source up to the line END, of which the label stays."""
        texts = self.source.text.split(b'\n')
        last = self.listing.lines[-1] if self.listing.lines else None
        if not last or operation_of(last.text.decode('latin-1')) != 'END':
            return self.source.text if self.source.text.endswith(b'\n') else self.source.text + b'\n'
        label = last.text.split()[0] if last.text[:1] not in (b' ', b'\t') else b''
        return b''.join(text + b'\n' for text in [*texts[:last.number - 1], *filter(None, [label])])

    def said_of(self, address, said):
        """What is said of an address, as a note: the number of its line in the text, and what is said with the text of
        that; without a number if no line has bytes there."""
        line = self.lines.get(address)
        if not line:
            return None, f'{said} >{address:04X}, where the source has no bytes'
        place = self.source.place(line.number) if self.source.made else None
        macros = f' ({", ".join(within(self.source.path, place))})' if place and place.within else ''
        return line.number, f'{said} this line: {self.source.line(line.number).strip()}{macros}'

    def name_of(self, at):
        """How a byte of the state is called: by its name and address, or by its address."""
        if at >= REGISTERS:
            return f'R@{at - REGISTERS}'
        if at >= VIDEO:
            return f'V@>{at - VIDEO:04X}'
        name = next((self.source.spelled(it.name) for it in self.values if it.value == at), None)
        return f'{name} (>{at:04X})' if name else f'>{at:04X}'
