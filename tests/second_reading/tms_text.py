"""Source lines and expressions as the Editor/Assembler manual has them: a line's fields, the operands of a field, the
tokens of an expression and its value with its kind (absolute, relocatable, external)."""
import re

ABSOLUTE, RELOCATABLE, EXTERNAL = 'absolute', 'relocatable', 'external'

LONGEST_LINE = 256
NAME = re.compile('[A-Z][A-Z0-9]{0,5}', re.ASCII)
# label, operation, operand field: the field ends at a blank outside quotes, and an open quote runs to the line's end
LINE = re.compile(r"([^ \t]*)[ \t]*([^ \t]*)[ \t]*((?:[^ \t']+|'[^']*(?:'|\Z))*)", re.ASCII)
OPERAND = re.compile(r"(?:[^,']+|'[^']*(?:'|\Z))*", re.ASCII)
QUOTED = re.compile(r"'(?:[^']|'')*'(?!')", re.ASCII)
TOKEN = re.compile(r"(?P<name>[A-Za-z][A-Za-z0-9]*)|(?P<decimal>[0-9]+)|>(?P<hexadecimal>[0-9A-Fa-f]+)|(?P<here>\$)"
                   r"|(?P<quoted>'(?:[^']|'')*'(?!'))|(?P<sign>[-+*/])", re.ASCII)
UPPER = {ord(letter): letter.upper() for letter in 'abcdefghijklmnopqrstuvwxyz'}


class Refused(Exception):
    """A refusal of a line; its text is that of the fault line after the line's number."""


def lines(data):
    """The lines of a source: they end at a line feed, before which a carriage return is dropped; what follows the last
    line feed is a line if it is not empty."""
    *whole, last = data.decode('latin-1').split('\n')
    found = [line[:-1] if line.endswith('\r') else line for line in whole]
    return found + [last] if last else found


def upper(text):
    return text.translate(UPPER)


def name_of(text):
    """The name that a text is, in upper case, or None: a letter and up to five letters or digits."""
    name = upper(text)
    return name if NAME.fullmatch(name) else None


def fields(line):
    """Label, operation and operand field, each '' if it is missing; None of a comment or a blank line."""
    if len(line) > LONGEST_LINE:
        raise Refused('line too long')
    if line[:1] == '*' or not line.strip(' \t'):
        return None
    label, operation, operands = LINE.match(line).groups()
    if label and not name_of(label):
        raise Refused('bad label')
    return upper(label), upper(operation), operands


def operands_of(field):
    """The operands of a field, which is cut at commas outside quotes; an empty field has none."""
    if not field:
        return []
    if "'" not in field:
        return field.split(',')
    found, at = [], 0
    while True:
        match = OPERAND.match(field, at)
        found.append(match.group())
        at = match.end() + 1
        if at > len(field):
            return found


def quoted_text(operand):
    """The characters of one closed quoted text, in which two quotes are one; None of anything else."""
    return operand[1:-1].replace("''", "'") if QUOTED.fullmatch(operand) else None


def token(kind, text):
    """A token of a kind: its kind and what it stands for. A number that is too large is refused here already."""
    if kind == 'decimal':
        if len(text.lstrip('0')) > 5 or int(text) > 65535:
            raise Refused('number too large')
        return 'number', int(text)
    if kind == 'hexadecimal':
        if len(text) > 4:
            raise Refused('number too large')
        return 'number', int(text, 16)
    if kind == 'name':
        if len(text) > 6:
            raise Refused('bad token')
        return 'name', upper(text)
    return kind, text


def tokens(text):
    """The tokens of an expression, read from the left; the first bad place is refused."""
    found, at = [], 0
    while at < len(text):
        match = TOKEN.match(text, at)
        if not match:
            raise Refused('bad token')
        kind = match.lastgroup
        found.append(token(kind, match.group(kind)))
        at = match.end()
    return found


def term(kind, text, names, here):
    """The value of one term: its kind and its number, or the name of an external one."""
    if kind == 'number':
        return ABSOLUTE, text
    if kind == 'here':
        return here
    if kind == 'name':
        if text not in names:
            raise Refused('unknown name')
        return names[text]
    if kind == 'quoted':
        characters = quoted_text(text)
        if 1 <= len(characters) <= 2:
            return ABSOLUTE, int.from_bytes(characters.encode('latin-1'), 'big')
    raise Refused('bad token')


def toward_zero(left, right):
    """The quotient of two words as signed numbers, toward zero."""
    left, right = (left ^ 0x8000) - 0x8000, (right ^ 0x8000) - 0x8000
    quotient = abs(left) // abs(right)
    return -quotient if (left < 0) != (right < 0) else quotient


# the kind of a sum or a difference by the kinds of its sides; what is not here is refused
SUMS = {('+', ABSOLUTE, ABSOLUTE): ABSOLUTE, ('+', ABSOLUTE, RELOCATABLE): RELOCATABLE,
        ('+', RELOCATABLE, ABSOLUTE): RELOCATABLE, ('-', ABSOLUTE, ABSOLUTE): ABSOLUTE,
        ('-', RELOCATABLE, ABSOLUTE): RELOCATABLE, ('-', RELOCATABLE, RELOCATABLE): ABSOLUTE,
        ('*', ABSOLUTE, ABSOLUTE): ABSOLUTE, ('/', ABSOLUTE, ABSOLUTE): ABSOLUTE}


def joined(left, sign, right):
    """The value of two joined by an operator."""
    kind = SUMS.get((sign, left[0], right[0]))
    if not kind:
        raise Refused('bad relocation')
    if sign == '+':
        number = left[1] + right[1]
    elif sign == '-':
        number = left[1] - right[1]
    elif sign == '*':
        number = left[1] * right[1]
    elif not right[1]:
        raise Refused('division by zero')
    else:
        number = toward_zero(left[1], right[1])
    return kind, number & 0xFFFF


def value(text, names, here):
    """The value of an expression: an optional minus sign and a term, and operators with terms, from left to right
    without precedence."""
    rest = tokens(text)
    rest.append(('end', ''))
    first = rest[0] == ('sign', '-')
    found = term(*rest[first], names, here)
    if first:
        found = joined((ABSOLUTE, 0), '-', found)
    at = first + 1
    while rest[at][0] != 'end':
        if rest[at][0] != 'sign':
            raise Refused('bad token')
        found = joined(found, rest[at][1], term(*rest[at + 1], names, here))
        at += 2
    return found
