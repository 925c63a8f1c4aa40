"""Whether each row of a source is where its comment says: the assembler is asked, by a label at each row and a table of
these labels that the source leaves room for.

A GPL source is asked GROM by GROM: its rows are assembled with a table in two other GROMs, and the labels of all other
rows are made equal to what their comments say. Machine code is assembled under DORG, which gives its labels their
values and places nothing, and only the table is placed.
"""
import re
import string

from .addresses import GROM
from .calls import report
from .image import words_of

BATCH = 12000       # rows of machine code that are asked together
IN_GROM = 4096      # words of a table in a GROM


def misplaced(program, source):
    """The first row that is not where its comment says, or None."""
    is_gpl = source.language.lister == 'gdis'
    for rows, lines, begins in _gpl(source) if is_gpl else _machine(source):
        made = report(program, source.language.assembler, given='\n'.join([*lines, ' END', '']).encode())
        table = made[begins:] if is_gpl else words_of(made)
        if table[:2 * len(rows)] != b''.join([row.address.to_bytes(2, 'big') for row in rows]):
            return next((row for i, row in enumerate(rows)
                         if table[2 * i:2 * i + 2] != row.address.to_bytes(2, 'big')), rows[0])
    return None


def _gpl(source):
    """For each GROM its rows, a source, and where in its bytes their table begins."""
    for grom in range(8):
        rows = [row for row in source.rows if row.address // GROM == grom]
        placed = [row for row in rows if not row.is_directive]
        if placed:
            names = _names(source, placed)
            uses = {it for row in rows for it in row.uses if it[1] // GROM != grom or not source.image.holds(it[1])}
            known = {line.split()[0] for line in source.equates()}
            lines = source.equates() + [f'{name} EQU >{at:04X}' for name, at in sorted(uses) if name not in known]
            first = 0 if grom >= 2 else 0x4000
            lines += _lines(source, rows, names)
            for i in range(0, len(placed), IN_GROM):
                lines += [f' GROM >{first + i * 2:04X}', *_table(names, placed[i:i + IN_GROM])]
            yield placed, lines, max(first - placed[0].address, 0)


def _machine(source):
    """The rows in batches, each with a source whose only bytes are their table."""
    placed = [row for row in source.rows if not row.is_directive]
    for i in range(0, len(placed), BATCH):
        part = placed[i:i + BATCH]
        names = _names(source, part)
        yield part, [*source.equates(), *_lines(source, source.rows, names), ' AORG 0', *_table(names, part)], 0


def _names(source, rows):
    """The label of each row, or one that is made for it, by its address. No made label is a name of the source."""
    used = {name[0] for name in source.named.used if re.fullmatch('[A-Z][0-9]{5}', name)}
    letter = next((it for it in string.ascii_uppercase if it not in used), 'A')
    return {row.address: row.label or f'{letter}{i:05}' for i, row in enumerate(rows)}


def _lines(source, rows, names):
    is_gpl = source.language.lister == 'gdis'
    lines = []
    for row in rows:
        if row.is_directive and not is_gpl:
            lines.append(f' DORG >{row.address:04X}')
        elif row.is_directive:
            lines.append(row.forms[0] if row.forms[0].startswith('*') else f' {row.forms[0]}')
        elif row.label:
            before, after = source.labels.lines(row.address)
            lines += [*before, f'{row.label} {row.forms[0]}', *after]
        else:
            lines.append(f'{names.get(row.address, "")} {row.forms[0]}')
    return lines


def _table(names, rows):
    return [' DATA ' + ','.join([names[row.address] for row in rows[i:i + 16]]) for i in range(0, len(rows), 16)]
