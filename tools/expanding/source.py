"""Lines that are taken one after the other, each with its place."""
from expanding.places import Place, Refused


class Lines:
    """The lines of a file, or those that the use of a macro stands for, with the depth of their file. Those of a use
    have a scope of their own for local labels."""

    def __init__(self, texts, place_of, depth=0, scope=None):
        self.texts, self.place_of, self.depth, self.scope = texts, place_of, depth, scope
        # how many are taken, and the numbers of the lines IF that are open, each with whether its ELSE was there
        self.number, self.open = 0, []
        # the place and the text of the line that was taken last
        self.place, self.text = None, ''

    def __iter__(self):
        texts, last = self.texts, len(self.texts)
        while self.number < last:
            self.text = texts[self.number]
            self.number += 1
            self.place = self.place_of(self.number)
            yield self.text

    def refused(self, cause, number=None):
        """The refusal of the line that was taken last, or of another one."""
        number = number or self.number
        return Refused(self.place_of(number), cause, self.texts[number - 1])


def of_file(name, data, depth=0, scope=None):
    """The lines of a file."""
    texts = data.decode('latin-1').split('\n')
    return Lines(texts[:-1] if texts[-1] == '' else texts, lambda number: Place(name, number), depth, scope)


def of_use(macro, texts, place, depth, scope):
    """The lines that the use of a macro at a place stands for."""
    file, line, within = place
    places = [within + it for it in macro.lines] if within else macro.lines
    return Lines(texts, lambda number: Place(file, line, places[number - 1]), depth, scope)
