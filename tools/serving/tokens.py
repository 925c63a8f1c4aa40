"""The parts of a line, by the fields that notes find: where its label, its operation, its names and its comment are."""
import functools
import re
import typing

from expanding.names import FILE_FORMS
from lib import notes
from lib.operations import GPL, TABLE

PREFIX = {GPL: re.compile(r'[VGRvgr]@|[Vv]\*|[@*]'), 'asm': re.compile('[@*]')}
PART = re.compile(r'(?P<text>"+)|(?P<parameter>\\(?:LEN\([0-9A-Za-z_]+\)|[A-Za-z][0-9A-Za-z_]*))|'
                  r'(?P<number>>[0-9A-Fa-f]+|[0-9]+(?![0-9A-Za-z]))|(?P<local>\.[0-9A-Za-z_]+)|'
                  r'(?P<name>[A-Za-z][0-9A-Za-z]*)(?![0-9A-Za-z_])|(?P<word>[0-9A-Za-z_]+)|(?P<operator>[-+*/$])')
REGISTER = re.compile('R(1[0-5]|[0-9])')
LOCAL = re.compile(r'\.[0-9A-Za-z_]{1,31}')
NAMES = ('label', 'name', 'local')
COLUMNS = 7, 12, 30


class Token(typing.NamedTuple):
    """A part of a line: its kind, and its columns."""
    kind: str
    start: int
    end: int


class Parts(typing.NamedTuple):
    """A line in fields, each its columns, and the tokens of all."""
    label: tuple
    operation: tuple
    operands: tuple
    rest: tuple
    tokens: tuple


def operation_in(language, word):
    """The row of an operation or directive, or None."""
    return TABLE[language].get(word.upper())


@functools.lru_cache(1 << 17)
def parts(language, line):
    """The parts of a line; of a comment None."""
    if line.startswith('*') or not line.strip(' \t'):
        return None
    found = notes.FIELDS.match(line)
    label, operation, operands, rest = (found.span(it) for it in range(1, 5))
    row = operation_in(language, found[2])
    tokens = [Token('label', *label)] if found[1] else []
    if row and row.is_bare:
        operands, rest = (operation[1], operation[1]), (operation[1], len(line))
    if found[2]:
        kind = 'operation' if row and not row.is_directive else 'directive' if row else 'macro'
        tokens.append(Token(kind, *operation))
    if found[2].upper() in FILE_FORMS:
        tokens.append(Token('file', *operands))
    elif found[2].upper() == 'MACRO':
        tokens += [Token('parameter', operands[0] + it.start(), operands[0] + it.end())
                   for it in re.finditer('[^,]+', found[3])]
    else:
        tokens += operand_tokens(language, line, *operands)
    comment = line[rest[0]:].strip(' \t')
    if comment:
        start = line.index(comment, rest[0])
        tokens.append(Token('comment', start, start + len(comment)))
    return Parts(label, operation, operands, rest, tuple(tokens))


@functools.lru_cache(1 << 17)
def named(language, line):
    """The names in a line: each in upper case with its columns, and whether the line defines it."""
    fields = parts(language, line)
    return tuple((line[it.start:it.end].upper(), it.start, it.end, it.kind == 'label')
                 for it in fields.tokens if it.kind in NAMES) if fields else ()


def operand_tokens(language, line, start, end):
    """The tokens of the operand field, operand by operand."""
    text = line[start:end]
    bare = notes.QUOTED.sub(lambda it: '"' * len(it[0]), text)
    at = 0
    for operand in bare.split(','):
        prefix = PREFIX[language].match(operand)
        skip = prefix.end() if prefix else 0
        if prefix:
            yield Token('prefix', start + at, start + at + skip)
        for found in PART.finditer(operand, skip):
            kind = found.lastgroup
            if kind == 'name' and REGISTER.fullmatch(found[0].upper()):
                kind = 'register'
            yield Token(kind, start + at + found.start(), start + at + found.end())
        at += len(operand) + 1


def operation_of(line):
    """The operation of a line in upper case; none of a comment."""
    return '' if line.startswith('*') else notes.fields(line).operation.upper()


def field_at(line, at):
    """The field that text at a column would belong to: 'label', 'operation', 'operands' or 'comment'."""
    if line.startswith('*'):
        return 'comment'
    found = notes.FIELDS.match(line[:at])
    if found[4]:
        return 'comment'
    if found[3] or found[2] and line[at - 1] in ' \t':
        return 'operands'
    return 'operation' if found[2] or line[:at].endswith((' ', '\t')) else 'label'


def set_out(language, line, columns=COLUMNS):
    """A line with its fields in their columns; a field that does not fit is one blank after the one before. A line that
    would be too long is left as it is."""
    found = parts(language, line)
    if found is None:
        return line.rstrip(' \t') if line.startswith('*') else ''
    comment = line[found.rest[0]:].strip(' \t')
    fields = [line[slice(*it)] for it in (found.label, found.operation, found.operands)] + [comment]
    made = ''
    for field, at in zip(fields, (0, *columns)):
        if field:
            made = (made + ' ' if made and len(made) >= at else made).ljust(at) + field
    return line if len(made.encode('utf-8', 'replace')) > notes.LINE_MAXIMUM else made


def replaced(line, changes):
    """A line with other words at columns. What follows a gap of blanks stays at its column if there is room."""
    for start, end, word in sorted(changes, reverse=True):
        tail = line[end:]
        gap = re.search(r'[ \t]{2,}' if start else r'[ \t]+', tail)
        grown = len(word) - (end - start)
        if gap and grown and '\t' not in gap[0] and "'" not in tail[:gap.end()]:
            width = max(1, len(gap[0]) - grown)
            tail = tail[:gap.start()] + ' ' * width + tail[gap.end():]
        line = line[:start] + word + tail
    return line
