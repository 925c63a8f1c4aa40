"""How a refused line is shown by the places of the author's files."""
import os

from lib.refusals import explanation, shown


def path_of(main, place):
    """The path of the file of a place, as the main file is named."""
    return os.path.join(os.path.dirname(main), place.file)


def within(main, place):
    """What is said of the macros that a line comes from: of each the line, the outermost first."""
    for it in place.within:
        yield f'in {it.macro} of {os.path.join(os.path.dirname(main), it.file)}:{it.number}'


def refusal(main, refused):
    """The lines for standard error of a line that is refused."""
    note = ', '.join(within(main, refused.place)) or None
    return explanation(path_of(main, refused.place), refused.place.number, refused.cause, refused.text, note)
