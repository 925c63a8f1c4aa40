"""Changes of a refused line whose note leaves one certain way to write it.

A byte that is too large is not made a word, since a word changes two cells.
"""
import re

from expanding.lines import are_cut_short, parts_of
from lib import notes
from lib.operations import ASSEMBLER, GPL

SLIPS = {'bad label', 'operand count', 'bad operand', 'bad token', 'bad directive', 'bad relocation'}


def outside_quotes(operands, change):
    """Operands in which what is in quotes stays as it is."""
    pieces = re.split(f'({notes.QUOTED.pattern})', operands)
    return ''.join(it if at % 2 else change(it) for at, it in enumerate(pieces))


def joined(parts):
    """A line without the blanks beside the commas of its operands."""
    operands, rest = parts.operands, parts.rest
    while True:
        again = parts_of(f'X X {operands}{rest}')
        if not are_cut_short(again):
            return ''.join([*parts[:4], operands, rest, parts.end])
        operands, rest = again.operands + again.rest.lstrip(' \t'), ''
        again = parts_of(f'X X {operands}')
        operands, rest = again.operands, again.rest


def with_operands(parts, operands):
    return ''.join([*parts[:4], operands, parts.rest, parts.end])


def of_label(line, parts):
    """Ways to write a label."""
    if notes.mark_note(line) and line.startswith('\xef\xbb\xbf'):
        yield 'Remove the byte order mark', line[3:]
    elif parts.label.startswith(';'):
        yield 'Begin the comment with *', '*' + line[1:]
    elif parts.label.endswith(':') and notes.NAME.fullmatch(parts.label[:-1]):
        yield 'Remove the colon', ''.join([parts.label[:-1], parts.gap or ' ', *parts[2:]])


def of_operands(language, parts):
    """Ways to write operands."""
    operation, operands = parts.operation.upper(), parts.operands
    if are_cut_short(parts):
        yield 'Remove the blanks at the commas', joined(parts)
        return
    number = outside_quotes(operands, lambda it: notes.ZERO_X.sub(lambda found: f'>{found[1].upper()}', it))
    number = outside_quotes(number, lambda it: notes.DOLLAR.sub(
        lambda found: found[0].replace('$' + found[1], f'>{found[1].upper()}'), it))
    if number != operands:
        yield 'Write the hexadecimal number with >', with_operands(parts, number)
    if '"' in outside_quotes(operands, lambda it: it) and "'" not in operands and operands.count('"') % 2 == 0:
        if operation not in ('COPY', 'BIN'):
            yield "Write the text between two '", with_operands(parts, operands.replace('"', "'"))
    if language == GPL and notes.PREFIX.search(operands):
        plain = outside_quotes(operands, lambda it: notes.PREFIX.sub(
            lambda found: found[0].replace(found[1], notes.PREFIXES[found[1].upper()]), it))
        yield 'Write the prefix as it is written here', with_operands(parts, plain)
    if operation in notes.OF_VALUES[language] and re.search('(^|,)@', operands):
        yield 'Remove the @', with_operands(parts, outside_quotes(operands, lambda it: re.sub('(^|,)@', r'\1', it)))
    if operation in ('DATA', 'BYTE') and notes.is_text(operands):
        yield 'Place the text by TEXT', ''.join([*parts[:2], 'TEXT', *parts[3:]])
    if operation == 'COPY' and re.fullmatch(r'[0-9A-Za-z_-][0-9A-Za-z._-]*', operands):
        yield 'Write the name of the file between two "', with_operands(parts, f'"{operands}"')
    if language == ASSEMBLER and operation in ('B', 'BL', 'BLWP') and notes.NAME.fullmatch(operands):
        yield f'Write the address @{operands}', with_operands(parts, f'@{operands}')


def of_file(line, parts):
    """Ways to name a file."""
    found = notes.COPY.match(line.encode('latin-1', 'replace'))
    if found and found[2] != found[3]:
        yield 'Remove the device', line.replace(found[2].decode('latin-1'), found[3].decode('latin-1'), 1)


def of_line(language, line, cause):
    """The ways to write a refused line: titles and lines."""
    parts = parts_of(line)
    if cause.startswith('missing '):
        yield from of_file(line, parts)
    elif cause == 'bad label':
        yield from of_label(line, parts)
    elif cause in SLIPS:
        yield from of_operands(language, parts)


def shortened(document_texts, line):
    """A name of a line that is too long, and its first six characters, if no other word of the texts begins with these;
    else None."""
    for found in notes.LONG_NAME.finditer(notes.QUOTED.sub(lambda it: ' ' * len(it[0]), line)):
        short, name = found[0][:6].upper(), found[0].upper()
        words = {word.upper() for text in document_texts for word in notes.WORD.findall(text)
                 if word.upper().startswith(short)}
        if words == {name}:
            return found[0], found[0][:6]
    return None


def with_word(lines, old, new):
    """Lines in which a word is another one, but not in quotes."""
    word = re.compile(rf'(?<![0-9A-Za-z]){re.escape(old)}(?![0-9A-Za-z])', re.I)
    return [outside_quotes(line, lambda it: word.sub(new, it)) if old.upper() in line.upper() else line
            for line in lines]
