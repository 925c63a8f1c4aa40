"""Where a line was written: a file and a line, and the lines of the macros that it comes from."""
import typing


class Within(typing.NamedTuple):
    """The line of a macro: the macro's name, the file that defines it, and the number of the line there."""
    macro: str
    file: str
    number: int

    def __str__(self):
        return f'in {self.macro} of {self.file}:{self.number}'


class Place(typing.NamedTuple):
    """The line of a file, and if a macro is used there, the line of the macro; of macros in macros the outer first.
    A line that stands in no file has the number 0."""
    file: str
    number: int
    within: tuple = ()

    def __str__(self):
        first = f'{self.file}:{self.number}' if self.number else self.file
        return ', '.join([first, *map(str, self.within)])

    @property
    def short(self):
        """The same for a narrow column: of a macro its name, and the number of the line."""
        return ' '.join([str(Place(self.file, self.number)), *(f'{it.macro}:{it.number}' for it in self.within)])


class Refused(Exception):
    """A line that has one of the forms in a wrong way: its place, the cause, and its text."""

    def __init__(self, place, cause, text):
        super().__init__(f'{place}: {cause}')
        self.place, self.cause, self.text = place, cause, text
