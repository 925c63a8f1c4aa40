"""The line that the program lists at an address, for any address of an image."""
import bisect
import itertools

from lib.command import UNREADABLE, Stopped

from .calls import report
from .measure import Measure
from .other import name, other

WINDOW = 64          # bytes that are listed from an address on
APART = 0x1000       # a distance of two addresses at which a call of its own costs less than the bytes between them
BLANKS = b'\n       '


def texts_of(listed):
    """The lines of a listing that stand for bytes, without their blanks."""
    lines = listed[len(BLANKS) - 1:-1].decode('latin-1').split(BLANKS.decode())
    return [line for line in lines if not line.startswith(('GROM', 'AORG', 'END'))]


def grouped(windows):
    """The windows in groups, in each of which the next one begins not far from the last."""
    groups = []
    for window in windows:
        if groups and window[0] - groups[-1][-1][1] < APART:
            groups[-1].append(window)
        else:
            groups.append([window])
    return groups


class Listing:
    """What is known of an image's lines: `known` has them by their addresses.

    The lines of the whole image are listed at first. They begin one after the other, so an address between two of them
    has a line of its own that is not among them. Such addresses are asked together: the program lists an image in which
    all but some bytes from each of them on is filled with bytes that begin no instruction.
    """

    def __init__(self, program, language, image):
        self.program, self.language, self.image = program, language, image
        self.measure = Measure(program, language)
        self.known, self.others = {}, {}
        for start, end in image.segments:
            self._learn(start, end, [(start, end)])

    def line(self, at):
        """The line at an address, or an operation that is left out in the place of its bytes; None if none is known."""
        line = self.known.get(at)
        if line is None or line.is_code or self.language.lister != 'gdis':
            return line
        if at not in self.others:
            self.others[at] = other(self.image, at) or line
        return self.others[at]

    def other_name(self, at):
        """The name of the operation that is left out and begins at an address, or nothing."""
        return name(self.image, at) if self.language.lister == 'gdis' else ''

    def learn(self, addresses):
        """Makes the lines at these addresses known, and some after them."""
        waiting = sorted(addresses)
        while waiting:
            windows = []
            for at in waiting:
                if not windows or at - windows[-1][1] >= self.language.longest:
                    windows.append((at, min(at + WINDOW, self.image.end(at))))
            for group in grouped(windows):
                self._learn(group[0][0], group[-1][1], group)
            asked = {low for low, _ in windows}
            waiting = [at for at in waiting if at not in self.known and at not in asked]

    def learn_range(self, low, high):
        """Makes the lines known that stand one after the other in a range."""
        end = min(high + WINDOW, self.image.end(low))
        self._learn(low, end, [(low, end)])

    def _learn(self, start, end, windows):
        filler = self.language.filler
        masked = bytearray(filler * ((end - start) // len(filler) + 1))[:end - start]
        for low, high in windows:
            masked[low - start:high - start] = self.image.bytes(low, high)
        texts = texts_of(report(self.program, self.language.lister, f'{start:04X}', given=bytes(masked)))
        self.measure.learn(texts)
        lines = [self.measure.lines[text] for text in texts]
        places = list(itertools.accumulate((line.length for line in lines), initial=start))
        if places[-1] != end:
            raise Stopped('the lines of a listing are not as long as its bytes', UNREADABLE)
        for low, high in windows:
            self._keep(lines, places, low, high)

    def _keep(self, lines, places, low, high):
        """Takes the lines that begin in a window, and not so near to its end that what follows it might matter."""
        last = high if high == self.image.end(low) else high - self.language.longest
        for i in range(bisect.bisect_left(places, low), bisect.bisect_left(places, last, 0, len(lines))):
            self.known.setdefault(places[i], lines[i])
