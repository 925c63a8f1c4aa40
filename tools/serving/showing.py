"""What the server shows of a source without being asked for a place: diagnostics, symbols, lines above labels."""
import re

from lib.operations import ASSEMBLER, TABLE

from .saying import bytes_of, of_operation
from .text import location, place, units
from .tokens import field_at, named, operation_in, operation_of, parts

FUNCTION, VARIABLE, CONSTANT, INTERFACE = 12, 13, 14, 11
ERROR, WARNING = 1, 2
KINDS = ['label', 'operation', 'directive', 'macro', 'name', 'local', 'register', 'number', 'text', 'file', 'operator',
         'prefix', 'parameter', 'word', 'comment']
# the same as editors know them
TYPES = ['function', 'keyword', 'macro', 'macro', 'variable', 'variable', 'type', 'number', 'string', 'string',
         'operator', 'operator', 'parameter', 'variable', 'comment']


def spot(language, line, cause, known):
    """The columns of a line that a cause is about. `known` gives the names that have a value."""
    fields = parts(language, line)
    whole = len(line) - len(line.lstrip()), max(len(line.rstrip()), 1)
    if fields is None or cause == 'line too long':
        return whole
    if cause in ('bad label', 'duplicate label') and fields.label[1]:
        return fields.label
    if cause == 'unknown operation':
        return fields.operation
    if cause.startswith('unknown name'):
        names = known()
        unknown = [(start, end) for name, start, end, defines in named(language, line)
                   if not defines and name not in names]
        return unknown[0] if unknown else fields.operands
    return fields.operands if fields.operands[0] < fields.operands[1] else whole


def related(source, known, found, document, line, start, end):
    """Other places that a refusal has to do with: those of its macros, and where a label has its value already."""
    for file, number in found.within:
        other = source.document(file)
        if other and number:
            yield {'location': location(other, number - 1, 0, len(other.line(number - 1))),
                   'message': f'in the macro: {other.line(number - 1).strip()}'}
    first = known().get(line[start:end].upper()) if found.cause == 'duplicate label' else None
    other = source.document(first.file) if first else None
    if other and first.number:
        yield {'location': location(other, first.number - 1, 0, len(first.name)), 'message': 'it has its value here'}


def refused(source, refusals, known):
    """The diagnostics of refusals, by the URI of their document."""
    found = {document.uri: [] for document in source.documents}
    for it in refusals:
        document, number = source.document(it.file) or source.root, max(it.number - 1, 0)
        line = document.line(number)
        start, end = spot(source.language, line, it.cause, known)
        others = list(related(source, known, it, document, line, start, end))
        found[document.uri].append({
            'range': place(line, number, start, end), 'severity': ERROR, 'source': 'ti_bench',
            'message': '\n'.join([it.cause, *(f'note: {note}' for note in it.notes)]),
            **({'relatedInformation': others} if others else {})})
    return found


def warned(source, warnings):
    """The diagnostics of warnings, as pairs of a URI and a diagnostic."""
    for it in warnings:
        document = source.document(it.file) or source.root
        line = document.line(it.number - 1)
        fields = parts(source.language, line)
        start, end = (fields.operation[0], max(fields.operation[1], fields.operands[1])) if fields else (0, len(line))
        yield document.uri, {'range': place(line, it.number - 1, start, end), 'severity': WARNING, 'source': 'ti_bench',
                             'code': it.name, 'message': f'{it.text} [{it.name}]'}


def kind_of(source, name):
    """The kind of symbol that a name is: a place of instructions, of data, a number, or another module's."""
    document = source.document(name.file)
    if name.mark == '*' or not document:
        return INTERFACE
    word = operation_of(document.line(name.number - 1))
    if word == 'EQU':
        return CONSTANT
    return VARIABLE if word in ('DATA', 'BYTE', 'TEXT', 'BSS', 'BES', 'CELL', 'BIN') else FUNCTION


def symbols(analysis, file):
    """The names of a text, by their lines, and its macros."""
    document = analysis.source.document(file)
    found = [it for it in map(analysis.name, analysis.names) if it.file == file and it.number]
    for name in sorted(found, key=lambda it: it.number):
        line, number = document.line(name.number - 1), name.number - 1
        end = len(re.match(r'[^ \t]*', line)[0])
        yield {'name': analysis.spelled(name.name), 'kind': kind_of(analysis.source, name),
               'detail': f'>{name.value:04X}{name.mark.strip()}', 'range': place(line, number, 0, len(line)),
               'selectionRange': place(line, number, 0, end)}
    for macro in analysis.made.macros.values() if analysis.made else ():
        if analysis.file(macro.file) == file:
            line, number = document.line(macro.first - 2), macro.first - 2
            yield {'name': macro.name, 'kind': FUNCTION, 'detail': f'MACRO {",".join(macro.parameters)}',
                   'range': place(line, number, 0, len(line)),
                   'selectionRange': place(line, number, 0, min(len(macro.name), len(line)))}


def completion(language, document, position, analysis, beside):
    """The words that may stand at a place: operations and macros, or names and registers, or files."""
    line, at = document.line(position['line']), document.column(position)
    field, written = field_at(line, at), re.search(r'[^ \t]*\Z', line[:at])[0]
    if field == 'operation':
        yield from operations(language, analysis, written.islower())
    elif field == 'operands' and not line[:at].count("'") % 2:
        row = operation_in(language, operation_of(line[:at]))
        if row and row.name in ('COPY', 'BIN'):
            yield from ({'label': name, 'kind': 17} for name in beside)
        elif not (row and row.is_bare):
            yield from operands(language, analysis)


def operations(language, analysis, is_lower):
    for name, row in TABLE[language].items():
        yield {'label': name.lower() if is_lower else name, 'kind': 14 if row.is_directive else 3,
               'detail': row.operands, 'documentation': {'kind': 'markdown', 'value': of_operation(language, name)}}
    for macro in analysis.made.macros.values() if analysis and analysis.made else ():
        yield {'label': macro.name, 'kind': 15, 'detail': ','.join(macro.parameters)}


def operands(language, analysis):
    for name in analysis.names.values() if analysis else ():
        if not analysis.made or name.name not in analysis.made.names:
            yield {'label': name.name, 'kind': 21 if name.mark == ' ' else 6,
                   'detail': f'>{name.value:04X}{name.mark.strip()}'}
    if language == ASSEMBLER:
        for number in range(16):
            yield {'label': f'R{number}', 'kind': 10, 'sortText': f'~{number:02d}'}


def hints(analysis, file, document, first, last):
    """The address and bytes of each line, at its end."""
    for number in range(first, min(last + 1, len(document.lines))):
        line = document.line(number)
        rows = analysis.rows(file, number + 1) if line.strip() and not line.startswith('*') else []
        if rows:
            yield {'position': {'line': number, 'character': units(line, len(line))}, 'label': bytes_of(rows),
                   'paddingLeft': True}


def folds(document):
    """Blocks of comment lines, and those of other lines between them and empty lines."""
    start, kind = 0, None
    for number in range(len(document.lines) + 1):
        line = document.line(number)
        now = 'comment' if line.startswith('*') else 'region' if line.strip() else None
        if now != kind:
            if kind and number - start > 1:
                yield {'startLine': start, 'endLine': number - 1, 'kind': kind}
            start, kind = number, now


def semantic(language, document):
    """The tokens of a text, as the protocol counts them."""
    data, before = [], 0
    for number in range(len(document.lines)):
        line = document.line(number)
        fields = parts(language, line)
        tokens = fields.tokens if fields else ([('comment', 0, len(line))] if line.startswith('*') else ())
        last = 0
        for kind, start, end in tokens:
            first, size = units(line, start), units(line, end) - units(line, start)
            data += [number - before, first - last if number == before else first, size, KINDS.index(kind), 0]
            before, last = number, first
    return {'data': data}
