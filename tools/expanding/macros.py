"""Macros: their definitions, and the lines that a use of one stands for."""
import re

from expanding.expression import Unvalued
from expanding.lines import parts_of, pieces
from expanding.places import Within

NAME = re.compile(r'[A-Za-z][0-9A-Za-z_]{0,30}')
TEXT = re.compile(r"'(?:[^']|'')*'")
MENTION = re.compile(r'\\(?:LEN\(([0-9A-Za-z_]+)\)|([A-Za-z][0-9A-Za-z_]*))', re.I)
QUOTED = re.compile(r"'[^']*(?:'|\Z)")


class Macro:
    """A macro: its name, its parameters in upper case, its lines, and the file and the number of its first line."""

    def __init__(self, name, parameters, texts, file, first):
        self.name, self.parameters, self.texts, self.file, self.first = name, parameters, texts, file, first
        # of each line its place in the macro, as the end of a place
        self.lines = [(Within(name, file, number),) for number in range(first, first + len(texts))]
        # the mentions of parameters, each with the parameter and whether its length is meant, and the lines as % fills
        # these in; one that is no parameter stays
        self.mentions = {}
        self.forms = [MENTION.sub(self.form, text.replace('%', '%%')) if '\\' in text else text for text in texts]

    def form(self, mention):
        """What stands for a mention in a line that % fills."""
        measured, named = mention.groups()
        parameter = (measured or named).upper()
        if parameter not in self.parameters:
            return mention[0]
        self.mentions[mention[0]] = parameter, bool(measured)
        return f'%({mention[0]})s'

    def filled(self, operands):
        """The lines that a use with these operands stands for."""
        given = pieces(operands) if self.parameters else []
        if len(given) != len(self.parameters):
            raise Unvalued(f'operand count: {self.name} takes {len(self.parameters)}, and {len(given)} are given')
        values = dict(zip(self.parameters, given))
        said = {mention: length(mention, values[name]) if is_length else values[name]
                for mention, (name, is_length) in self.mentions.items()}
        return [form % said if '\\' in form else form for form in self.forms]


def length(mention, text):
    """The length of the text in quotes that an operand is."""
    if not TEXT.fullmatch(text):
        raise Unvalued(f'{mention} is the length of a text in quotes, and the operand is {text}')
    return len(text[1:-1].replace("''", "'"))


def parameters_of(operands):
    """The parameters that a MACRO line names."""
    found = [name.upper() for name in pieces(operands)]
    wrong = next((name for name in found if not NAME.fullmatch(name)), None)
    if wrong is not None:
        raise Unvalued(f'{wrong or "an empty operand"} is no name of a parameter')
    if len(set(found)) < len(found):
        raise Unvalued('a parameter is named twice')
    return tuple(found)


def stranger(text, parameters):
    """What a line mentions outside of quotes and comments that is no parameter, or None."""
    parts = parts_of(text)
    if text.startswith('*'):
        return None
    bare = QUOTED.sub('', ' '.join([parts.label, parts.operation, parts.operands]))
    return next((it[0] for it in MENTION.finditer(bare) if (it[1] or it[2]).upper() not in parameters), None)
