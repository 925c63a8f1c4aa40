"""Lines, fields, operands and expressions of a GPL source, by the Editor/Assembler manual's chapter on source
statements and expressions; where the manual is silent, by the profile.

A text is a str of one character a byte.
"""
import re

LONGEST_LINE = 256
REGISTERS = {f'R{number}': number for number in range(16)}

SMALL = 'abcdefghijklmnopqrstuvwxyz'
CAPITAL = str.maketrans(SMALL, SMALL.upper())
NAME = re.compile(r'[A-Z][A-Z0-9]{0,5}\Z')
FIELDS = re.compile(r'([^ \t]*)[ \t]*([^ \t]*)[ \t]*(.*)\Z', re.DOTALL)
# an operand field ends at a blank outside quotes, and a quote that is not closed runs to the end of the line
OPERAND_FIELD = re.compile(r"(?:[^ \t']|'[^']*(?:'|\Z))*", re.DOTALL)
TOKEN = re.compile(r"(?P<decimal>[0-9]+)|>(?P<digits>[0-9A-F]+)|(?P<name>[A-Z][A-Z0-9]*)"
                   r"|(?P<text>'(?:[^']|'')*')(?!')|(?P<here>\$)|(?P<sign>[-+*/])", re.DOTALL)


class Fault(Exception):
    """A refusal of a line, by the words of its fault line."""


def source_lines(text):
    """The lines of a text: each ends at a line feed, a carriage return before it is dropped, and a last line without
    line feed counts where it is not empty."""
    *ended, last = text.split('\n')
    lines = [line[:-1] if line.endswith('\r') else line for line in ended]
    return lines + [last] if last else lines


def capital(text):
    """A text with its letters outside quotes as capitals."""
    if "'" not in text:
        return text.translate(CAPITAL)
    return "'".join(piece if number % 2 else piece.translate(CAPITAL) for number, piece in enumerate(text.split("'")))


def is_name(text):
    return NAME.match(text) is not None


def fields(line):
    """Label, operation and operand field of a line, each '' where there is none; None for a comment."""
    if len(line) > LONGEST_LINE:
        raise Fault('line too long')
    if not line.strip(' \t') or line[0] == '*':
        return None
    label, operation, rest = FIELDS.match(line).groups()
    label = label.translate(CAPITAL)
    if label and not is_name(label):
        raise Fault('bad label')
    return label, operation.translate(CAPITAL), capital(OPERAND_FIELD.match(rest).group())


def operands(field):
    """The operands of a field: it is cut at commas outside quotes, and an empty field has none."""
    if not field:
        return []
    if "'" not in field:
        return field.split(',')
    found = ['']
    for number, piece in enumerate(field.split("'")):
        quote = "'" if number else ''
        if number % 2:
            found[-1] += quote + piece
        else:
            first, *more = piece.split(',')
            found[-1] += quote + first
            found += more
    return found


def quoted(text):
    """The characters of one closed quoted text, where two quotes are one; None where a text is no such thing."""
    token = TOKEN.match(text)
    if not token or token.lastgroup != 'text' or token.end() != len(text):
        return None
    return text[1:-1].replace("''", "'")


def tokens(text):
    """The tokens of an expression, each its kind and what it holds; the first bad place is refused before any term is
    valued."""
    found = []
    place = 0
    while place < len(text):
        token = TOKEN.match(text, place)
        if not token:
            raise Fault('bad token')
        kind = token.lastgroup
        words = token.group(kind)
        if kind == 'decimal' and int(words) > 0xFFFF or kind == 'digits' and len(words) > 4:
            raise Fault('number too large')
        if kind == 'name' and len(words) > 6:
            raise Fault('bad token')
        found.append((kind, words))
        place = token.end()
    return found


def term(token, names, here):
    """The number of a term: a decimal or hexadecimal number, the location, a name, or one or two characters."""
    kind, words = token
    if kind == 'decimal':
        return int(words)
    if kind == 'digits':
        return int(words, 16)
    if kind == 'here':
        return here & 0xFFFF
    if kind == 'name':
        if words not in names:
            raise Fault('unknown name')
        return names[words]
    characters = words[1:-1].replace("''", "'") if kind == 'text' else ''
    if not 1 <= len(characters) <= 2:
        raise Fault('bad token')
    return int.from_bytes(characters.encode('latin-1'), 'big')


def signed(number):
    """A word as a number from -32768 to 32767."""
    return number - 0x10000 if number & 0x8000 else number


def divided(above, below):
    """Division takes signed numbers toward zero."""
    if below == 0:
        raise Fault('division by zero')
    above, below = signed(above), signed(below)
    quotient = abs(above) // abs(below)
    return quotient if (above < 0) == (below < 0) else -quotient


JOINING = {'+': lambda left, right: left + right, '-': lambda left, right: left - right,
           '*': lambda left, right: left * right, '/': divided}


def value(text, names, here):
    """The value of an expression: an optional minus sign and a term, then operators with terms, from left to right."""
    found = tokens(text)
    place = 1 if found[:1] == [('sign', '-')] else 0
    if len(found) == place:
        raise Fault('bad token')
    total = term(found[place], names, here)
    total = -total & 0xFFFF if place else total
    for place in range(place + 1, len(found), 2):
        kind, sign = found[place]
        if kind != 'sign' or place + 1 == len(found):
            raise Fault('bad token')
        total = JOINING[sign](total, term(found[place + 1], names, here)) & 0xFFFF
    return total
