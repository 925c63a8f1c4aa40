"""The tables of operations in documents, and whether they have the names and codes of the definitions."""
import re

from editing import names
from lib.command import Stopped
from lib.operations import ASSEMBLER, GPL, TABLE, sentences
from lib.repository import TOP, read_text
from listing.operations import operations

DOCUMENTS = {GPL: 'docs/GPL.md', ASSEMBLER: 'docs/ASSEMBLER.md'}
PLACE = re.compile(r'(<!-- operations: written by tools/editors -->\n).*?(<!-- end of operations -->\n)', re.S)
# what the table of the definitions has for NOP and RT, which are names of words
FIXED = {'NOP': 0x1000, 'RT': 0x045B}


def gpl_codes():
    """The first code of each operation of GPL, by the definitions; of MOVE all."""
    found, moves = {}, []
    for kind, name, code, count in operations():
        if kind == 'move':
            moves += [code, code + 1]
        elif kind == 'branch':
            found[name] = f'>{code:02X} to >{code + count - 1:02X}'
        elif kind == 'two' and name != 'EX':
            found[name], found[f'D{name}'] = f'>{code:02X} >{code + 2:02X}', f'>{code + 1:02X} >{code + 3:02X}'
        else:
            found[name], found[f'D{name}'] = f'>{code:02X}', f'>{code + 1:02X}'
    found['MOVE'] = ranges(sorted(moves))
    return found


def ranges(codes):
    """Codes as text, those in a row by the first and the last if they are more than two."""
    rows = []
    for code in codes:
        if rows and rows[-1][-1] == code - 1:
            rows[-1].append(code)
        else:
            rows.append([code])
    return ', '.join(f'>{row[0]:02X} to >{row[-1]:02X}' if len(row) > 2 else ', '.join(f'>{it:02X}' for it in row)
                     for row in rows)


def assembler_codes():
    """The code of each operation of the processor, by the definitions."""
    rows = re.findall(r'= row 0x([0-9A-F]{4}) \(codes "(\w+)"\)', names.definition('tms_defs', 'Instructions'))
    return {**{name: f'>{code}' for code, name in rows}, **{name: f'>{code:04X}' for name, code in FIXED.items()}}


def faults():
    """What the table of operations has in another way than the definitions."""
    for language, found, codes in ((GPL, names.gpl(), gpl_codes()), (ASSEMBLER, names.assembler(), assembler_codes())):
        rows = TABLE[language]
        operations_known = {*found.operations, *found.bare_operations}
        directives = {*found.directives, *found.bare_directives, *found.file_directives}
        own = {name for name, it in rows.items() if not it.is_directive}
        yield from (f'{language}: {name} is an operation of one alone' for name in sorted(own ^ operations_known))
        own = {name for name, it in rows.items() if it.is_directive and not it.is_form}
        yield from (f'{language}: {name} is a directive of one alone' for name in sorted(own ^ directives))
        bare = {*found.bare_operations, *found.bare_directives}
        for name in sorted(set(rows) & (operations_known | directives)):
            if not rows[name].is_form and rows[name].is_bare != (name in bare):
                yield f'{language}: {name} takes operands in one alone'
            if name in operations_known and rows[name].code != codes.get(name):
                yield f'{language}: {name} has the code {rows[name].code} in place of {codes.get(name)}'


def documents():
    """The documents with the tables, by their paths."""
    found = list(faults())
    if found:
        raise Stopped('tools/lib/operations.py and the definitions differ', below=found)
    made = {}
    for language, name in DOCUMENTS.items():
        table = '\n'.join(sentences(language))
        text = read_text(TOP / name)
        if not PLACE.search(text):
            raise Stopped(f'{name} has no place for the table of operations')
        made[TOP / name] = PLACE.sub(lambda it: f'{it[1]}\n{table}\n\n{it[2]}', text)
    return made
