"""Marks in the comments of a source, as [ok data]: a warning of this name is meant there, and is not shown."""
import re

from expanding.lines import parts_of
from expanding.names import WORDS
from lib.languages import GPL

MARK = re.compile(r'\[ok ([a-z]+)\]')


def comment_of(text):
    """The comment of a line, or what follows an operation without operands."""
    if text.startswith('*'):
        return ''
    parts = parts_of(text)
    is_bare = parts.operation.upper() in WORDS[GPL].bare
    return parts.second_gap + parts.operands + parts.rest if is_bare else parts.rest


class Marks:
    """The marks of a source by the places of its lines. One at the use of a macro is for all lines of the use; one in a
    macro is for each use."""

    def __init__(self, source, count, names):
        self.source, self.names, self.found, self.used = source, names, {}, set()
        for number in range(1, count + 1):
            for name in MARK.findall(comment_of(source.line(number))):
                self.found.setdefault((source.key(number), name), number)

    def silence(self, number, name):
        """Whether a mark is for a warning of a line."""
        key = self.source.key(number)
        for length in range(len(key) + 1):
            mark = key[:length], name
            if mark in self.found:
                self.used.add(self.definition(mark))
                return True
        return False

    def definition(self, mark):
        """Where a mark is written: the last line of its key, which is that of a macro if it is in one."""
        key, name = mark
        return key[-1], name

    def warnings(self):
        """The warnings of marks: of a name that no warning has, and for which there is no warning."""
        reported = set()
        for mark, number in self.found.items():
            written = self.definition(mark)
            if written in self.used or written in reported:
                continue
            reported.add(written)
            if mark[1] in self.names:
                yield number, 'mark', f'there is no warning {mark[1]} here'
            else:
                yield number, 'mark', f'no warning has the name {mark[1]}'
