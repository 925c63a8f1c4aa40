"""How many bytes a line makes: the assembler says so, by the distance of labels around it."""
from lib.command import UNREADABLE, Stopped

from .calls import Rejected, report
from .image import words_of
from .language import Line

BATCH, IN_GROM = 4000, 600      # lines of a source, and lines of a GROM, each of at most 13 bytes


def source(language, texts):
    """A source that places the lengths of the lines first, and then the lines."""
    lengths = [f'B{i:05}-A{i:05}' for i in range(len(texts))]
    lines = [' GROM 0'] if language.assembler == 'gasm' else []
    lines += [f' BYTE {",".join(lengths[i:i + 16])}' for i in range(0, len(texts), 16)]
    for i, text in enumerate(texts):
        if language.assembler == 'gasm' and i % IN_GROM == 0:
            lines.append(f' GROM {(i // IN_GROM + 1) * 0x2000}')
        lines += [f'A{i:05} {text}', f'B{i:05}']
    return '\n'.join([*lines, '']).encode()


class Measure:
    """The lines of listings by their texts, each measured once."""

    def __init__(self, program, language):
        self.program, self.language, self.lines = program, language, {}

    def learn(self, texts):
        """Makes the lines of these texts known. A jump is measured as one to its own place, which is always near."""
        new = {text: self._asked(text) for text in texts if text not in self.lines}
        asked, lengths = list(dict.fromkeys(new.values())), {}
        for i in range(0, len(asked), BATCH):
            part = asked[i:i + BATCH]
            lengths.update(zip(part, self._lengths(part)))
        self.lines.update((text, Line(self.language, text, lengths[it])) for text, it in new.items())

    def _lengths(self, texts):
        try:
            made = report(self.program, self.language.assembler, given=source(self.language, texts))
        except Rejected as rejected:
            raise Stopped(f'the program rejects its own listing: {rejected}', UNREADABLE) from None
        made = made if self.language.assembler == 'gasm' else words_of(made)
        if len(made) < len(texts):
            raise Stopped('the program does not say how long its lines are', UNREADABLE)
        return made

    def _asked(self, text):
        operation = text.partition(' ')[0]
        return f'{operation} $' if operation in self.language.near else text
