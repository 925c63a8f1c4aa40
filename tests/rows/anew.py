"""Rows that are written anew, by how their runs ended."""
from table import STATUSES, marked, text_of

# the marks of the lines by which a row shows how its runs end
ENDS = tuple('?>.~e')


def ending_of(row, run):
    """The lines by which a row shows how a run ended: as many of standard output as before, if more may follow. None if
    no lines show it: the status is none of a row, or a part that must be there is not."""
    if run.status not in STATUSES.values() or not all(part in run.out for part in row.parts):
        return None
    lines = run.out.split(b'\n')[:row.out.count(b'\n')]
    out = b''.join(line + b'\n' for line in lines) if row.more else run.out
    status = [f'? {name}' for name, number in STATUSES.items() if run.status and number == run.status]
    parts = [f'~ {text_of(part)}' for part in row.parts]
    return [*status, *marked('>', out), *['...'] * row.more, *parts, *marked('e', run.err)]


def endings(results):
    """The lines that show how the runs of a row ended, by the numbers of their rows' lines. The results are rows with
    their runs; a row is left out if all its runs end as it says, and if they do not end alike."""
    by_row = {}
    for row, run in results:
        by_row.setdefault(int(row.place.rpartition(':')[2]), []).append((row, run))
    found = {}
    for number, runs in by_row.items():
        alike = len({run for _, run in runs}) == 1
        lines = ending_of(*runs[0]) if alike and not all(row.passes(run) for row, run in runs) else None
        if lines is not None:
            found[number] = lines
    return found


def with_endings(text, found):
    """A text with rows that end by these lines, by the numbers of the rows' lines."""
    lines = text.split('\n')
    for first in sorted(found, reverse=True):
        end = next((at for at in range(first, len(lines)) if lines[at].startswith('%')), len(lines))
        row = '\n'.join(line for line in lines[first:end] if not line.startswith(ENDS))
        blank = row[len(row.rstrip('\n')):] if end < len(lines) else '\n'
        lines[first:end] = '\n'.join([row.rstrip('\n'), *found[first]]).split('\n') + blank.split('\n')[1:]
    return '\n'.join(lines)
