"""What is said at a place of a text: of a name, of an operation, of a macro, and of the line itself."""
import re

from lib.operations import ASSEMBLER, GPL

from . import names
from .text import place
from .tokens import operation_in, parts

KINDS = {"'": 'relocatable', '*': 'external', ' ': 'absolute'}
PAGES = {GPL: 'docs/GPL_STEP.md', ASSEMBLER: 'docs/MACHINE.md'}
MARKDOWN = re.compile(r'([\\`*_{}\[\]<>#|])')
# the most rows and lines that are said of one line or macro
MOST_ROWS, MOST_LINES = 4, 12


def plain(text):
    """A text of a source as Markdown, in which no character of it means anything."""
    return MARKDOWN.sub(r'\\\1', text)


def code(text):
    """A text of a source as a block of code."""
    fence = '`' * max(3, 1 + max((len(it) for it in re.findall('`+', text)), default=0))
    return f'{fence}\n{text}\n{fence}'


def bytes_of(rows):
    """The addresses and the bytes of rows."""
    shown = '; '.join(map(str, rows[:MOST_ROWS]))
    return shown + (f'; and {len(rows) - MOST_ROWS} more' if len(rows) > MOST_ROWS else '')


def of_operation(language, word):
    """What an operation or directive takes and does, as Markdown; None if it is none."""
    row = operation_in(language, word)
    if not row:
        return None
    lines = [f'**{row.name}** {plain(row.operands)}', f'{plain(row.does)}.']
    if row.code:
        lines.append(f'Code: `{row.code}`. Status bits: {plain(row.status) or "none"}.')
    return '\n\n'.join(lines)


def comment_before(document, number):
    """The comment lines before a line, but not those of tests."""
    found, above = [], number - 1
    while above >= 0 and document.line(above).startswith('*') and not document.line(above).startswith('*!'):
        found.insert(0, document.line(above)[1:].strip())
        above -= 1
    return '\n'.join(text for text in found if text)


def of_name(analysis, key):
    """The value of a name, where it has it from, and what is said there; None if it has none."""
    found = analysis.name(key.name)
    if not found:
        return None
    kind = KINDS[found.mark] + ' ' if analysis.source.language == ASSEMBLER else ''
    lines = [f'**{plain(analysis.spelled(found.name))}** {kind}`>{found.value:04X}` ({found.value})']
    document = analysis.source.document(found.file)
    if found.number and document:
        lines.append(code(document.line(found.number - 1)))
        rows = [it for it in analysis.rows(found.file, found.number) if it.shown]
        if rows:
            lines.append(f'`{bytes_of(rows)}`')
        if text := comment_before(document, found.number - 1):
            lines.append(plain(text))
        lines.append(f'*line {found.number}{f" of {plain(found.file)}" if found.file else ""}*')
    if len(key.names) > 1:
        lines.append(f'a name of its own in each of {len(key.names)} uses')
    return '\n\n'.join(lines)


def of_macro(analysis, key):
    """The lines of a macro."""
    macro = analysis.made.macros.get(key.name)
    if not macro:
        return None
    head = f'**{macro.name}** {plain(", ".join(macro.parameters))}'
    more = [f'.. and {len(macro.texts) - MOST_LINES} more'] if len(macro.texts) > MOST_LINES else []
    return '\n\n'.join([head, code('\n'.join([*macro.texts[:MOST_LINES], *more])),
                        f'*line {macro.first - 1} of {plain(macro.file)}*'])


def hover(analysis, file, document, position):
    """What is said at a place."""
    language, number = analysis.source.language, position['line']
    line, at = document.line(number), document.column(position)
    fields, said, where = parts(language, line), [], None
    if fields is None:
        return None
    key = names.key_at(analysis, file, document, position)
    if key:
        said.append(of_macro(analysis, key) if key.kind == names.MACRO else of_name(analysis, key))
        where = key.start, key.end
    elif fields.operation[0] <= at <= fields.operation[1]:
        said.append(of_operation(language, line[slice(*fields.operation)]))
        where = fields.operation
    rows = analysis.rows(file, number + 1)
    if rows:
        said.append(f'line {number + 1}: `{bytes_of(rows)}`')
    said = [it for it in said if it]
    if not said:
        return None
    return {'contents': {'kind': 'markdown', 'value': '\n\n---\n\n'.join(said)},
            **({'range': place(line, number, *where)} if where else {})}


def signature(language, document, position, field):
    """The operands of the operation of a line."""
    line = document.line(position['line'])
    fields = parts(language, line)
    row = operation_in(language, line[slice(*fields.operation)]) if fields and field == 'operands' else None
    if not row:
        return None
    return {'signatures': [{'label': f'{row.name} {row.operands}', 'documentation': row.does}], 'activeSignature': 0}
