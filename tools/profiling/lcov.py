"""Counts as a tracefile of LCOV, which editors show beside the lines and `genhtml` as pages.

A line of the author's is there if it has an instruction, or if it was executed; that of a macro counts where the macro
is used, as often as the most of its lines. BR and BS have two ways: to the target, and on.
"""
import os

from lib.terminal import escaped
from profiling.authors import GplAuthor


class File:
    """What a tracefile has of a file: of each line how often it was executed, and the ways of its branches; and the
    first line of each routine, with how often it was begun."""

    def __init__(self):
        self.lines, self.branches, self.routines = {}, {}, {}

    def rows(self):
        yield from (f'FN:{number},{name}' for name, (number, _) in self.routines.items())
        yield from (f'FNDA:{times},{name}' for name, (_, times) in self.routines.items())
        yield f'FNF:{len(self.routines)}'
        yield f'FNH:{sum(times > 0 for _, times in self.routines.values())}'
        ways = [(number, block, way, times) for number, branches in sorted(self.branches.items())
                for block, both in enumerate(branches) for way, times in enumerate(both)]
        for number, block, way, times in ways:
            yield f'BRDA:{number},{block},{way},{"-" if times is None else times}'
        yield f'BRF:{len(ways)}'
        yield f'BRH:{sum(bool(times) for *_, times in ways)}'
        yield from (f'DA:{number},{times}' for number, times in sorted(self.lines.items()))
        yield f'LF:{len(self.lines)}'
        yield f'LH:{sum(times > 0 for times in self.lines.values())}'


def tracefile(source, counts, name=''):
    """The tracefile of the counts of a GPL source, as bytes; the test that they are of may have a name."""
    return of_author(GplAuthor(source, counts.listing), counts, name)


def of_author(author, counts, name=''):
    """The same for an author's lines."""
    rows = [f'TN:{name}']
    for path, file in sorted(files_of(author, counts).items()):
        rows += [f'SF:{escaped(path)}', *file.rows(), 'end_of_record']
    return ''.join(f'{row}\n' for row in rows).encode('utf-8', 'surrogateescape')


def files_of(author, counts):
    """The files of an author with what was counted, by their paths."""
    found, lines = {}, list(counts.lines())
    for it in lines:
        if it.is_code or it.wild:
            file, number = place_of(author, it.line.number, found)
            file.lines[number] = max(file.lines.get(number, 0), it.reached + it.inside)
            if it.branch:
                file.branches.setdefault(number, []).append(it.branch if it.reached else (None, None))
    numbers = {it.line.address: it.line.number for it in lines}
    for address, times in sorted(counts.routines().items()):
        if address in numbers:
            file, number = place_of(author, numbers[address], found)
            file.routines[author.name(address)] = (number, times)
    return found


def place_of(author, number, found):
    """The file of a line, and the number of the author's line there."""
    path, number = author.file(number)
    return found.setdefault(os.path.abspath(path), File()), number
