"""Sources that copy files, as COPY of the Editor/Assembler manual does; which names, how deep, how often and how large
is a choice of the profile."""
import re

import tms_assembler
import tms_module
import tms_object
import tms_text
from tms_text import Refused

DEEPEST = 4
MOST_COPIES = 64
LARGEST_INPUT = 1048576
LARGEST_COPY = 262144

FILE_NAME = '[A-Za-z0-9_-][A-Za-z0-9._-]{0,59}'
QUOTED_NAME = re.compile(f"'({FILE_NAME})'|\"({FILE_NAME})\"", re.ASCII)


class TooLarge(Exception):
    """A file that is too large is reported without its place."""


class Copying:
    """An assembly of a source and the files that it copies, which are bytes by name."""

    def __init__(self, files):
        self.files = files
        self.assembly = tms_assembler.Assembly()
        self.copies = 0

    def take(self, data, name=None, depth=0):
        """Takes all lines of the input or of a file, up to END."""
        for number, line in enumerate(tms_text.lines(data), 1):
            if self.assembly.ended:
                return
            where = name, number
            copied = self.copied(line, where)
            if copied is None:
                self.assembly.take(where, line)
            else:
                try:
                    found = self.file(*copied, depth)
                except Refused as why:
                    raise tms_assembler.LineRefused(where, str(why)) from None
                self.take(found, copied[1], depth + 1)

    def copied(self, line, where):
        """The label of a COPY line and the name of its file, None if it is no file name; None of any other line."""
        if 'COPY' not in tms_text.upper(line):
            return None
        try:
            found = tms_text.fields(line)
        except Refused:
            return None
        if not found or found[1] != 'COPY':
            return None
        match = QUOTED_NAME.fullmatch(found[2])
        return found[0], match and (match.group(1) or match.group(2))

    def file(self, label, name, depth):
        """The bytes of the file that a COPY line names, or its first refusal."""
        if label or not name:
            raise Refused('bad directive')
        if depth == DEEPEST:
            raise Refused('copy too deep')
        self.copies += 1
        if self.copies > MOST_COPIES:
            raise Refused('too many copies')
        if name not in self.files:
            raise Refused(f'missing {name}')
        if len(self.files[name]) > LARGEST_COPY:
            raise TooLarge
        return self.files[name]


def place(where):
    """A line's place as a fault line begins."""
    name, number = where
    return f'{name} line {number}' if name else f'line {number}'


def report(given, files):
    """The status, the object text and the fault line of an assembly."""
    try:
        if len(given) > LARGEST_INPUT:
            raise TooLarge
        copying = Copying(files)
        copying.take(given)
        return 0, tms_object.text_of(tms_module.module_of(copying.assembly)), b''
    except tms_assembler.LineRefused as fault:
        return 1, b'', f'{place(fault.where)}: {fault.why}\n'.encode('latin-1')
    except TooLarge:
        return 1, b'', b'too large\n'
