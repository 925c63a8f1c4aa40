"""The fields of a line with the blanks between them, and a line that is changed and keeps its columns."""
import functools
import re
import typing

PARTS = re.compile(r"([^ \t]*)([ \t]*)([^ \t]*)([ \t]*)((?:[^ \t']+|'[^']*(?:'|\Z))*)(.*)()", re.S)
LABEL = re.compile(r'[^ \t]*')
OPERATION = re.compile(r'(?!\*)[^ \t]*[ \t]+([^ \t\r]+)')
PIECE = re.compile(r"(?:[^,']|'[^']*(?:'|\Z))+|(?<=,)(?=,|\Z)|\A(?=,)")
# the most characters of a line
LONGEST = 256
# for how many lines the parts are kept: the lines of macros come again and again, and in an editor all lines after
# each key
MOST_KEPT = 1 << 15


class Parts(typing.NamedTuple):
    """A line: label, operation, operands and the rest, with the blanks between them, and the end of the line, which is
    a carriage return or nothing."""
    label: str
    gap: str
    operation: str
    second_gap: str
    operands: str
    rest: str
    end: str


@functools.lru_cache(MOST_KEPT)
def operation_of(text):
    """The operation of a line in upper case; none of a comment."""
    found = OPERATION.match(text)
    return found[1].upper() if found else ''


@functools.lru_cache(MOST_KEPT)
def parts_of(text):
    """The parts of a line."""
    if text.endswith('\r'):
        return Parts._make((*PARTS.match(text[:-1]).groups()[:-1], '\r'))
    return Parts._make(PARTS.match(text).groups())


def label_of(text):
    """The label of a line, if it has one."""
    return LABEL.match(text.removesuffix('\r'))[0]


def pieces(operands):
    """The operands of a field."""
    return PIECE.findall(operands)


def are_cut_short(parts):
    """Whether a blank stands at a comma of the operands, so that those after it would be a comment."""
    rest = parts.rest.strip(' \t')
    return rest.startswith(',') or bool(rest) and parts.operands.endswith(',')


def fitted(blanks, grown):
    """The blanks after a field that has grown: as many fewer, but one at least; and how much too far right all is."""
    if not grown or not blanks or '\t' in blanks:
        return blanks, 0
    wanted = len(blanks) - grown
    return ' ' * max(1, wanted), max(0, 1 - wanted)


def changed(parts, label, operation, operands):
    """A line with other fields: what stands after them stays in its column, if there is room."""
    gap, over = fitted(parts.gap, len(label) - len(parts.label))
    second_gap, over = fitted(parts.second_gap, over + len(operation) - len(parts.operation))
    comment = parts.rest.lstrip(' \t')
    blanks, _ = fitted(parts.rest[:len(parts.rest) - len(comment)], over + len(operands) - len(parts.operands))
    return ''.join([label, gap, operation, second_gap, operands, blanks, comment, parts.end])


def comment_of(parts):
    """A line without its label as a comment, in the same columns."""
    text = ''.join([' ' * len(parts.label), *parts[1:]])
    return ('*' + text[1:] if text.startswith(' ') else '*' + text)[:LONGEST]
