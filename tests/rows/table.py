"""Rows of text: each is a run of a program, with its words, its input, its files, and how it must end."""
import copy
import re

from lib.command import UNREADABLE, Stopped

PROGRAMS = ('ti_bench', 'ti_debug')
STATUSES = {'Done': 0, 'Refused': 1, 'Usage': 2, 'ReadFault': 3, 'WriteFault': 4, 'Memory': 5, 'Stopped': 7}
FILE = re.compile(r'(?!\.)[A-Za-z0-9._-]{1,60}')
ESCAPE = re.compile(r'\\(n|x[0-9A-Fa-f]{2}|)')
TIMES = re.compile(r'\*([1-9][0-9]{0,6})')


class Wrong(Exception):
    """What is wrong with a line of a table."""


def escaped_byte(found):
    r"""The byte that `\n` or `\xNN` stands for."""
    if not found[1]:
        raise Wrong(r'after \ comes n, or x and two hexadecimal digits')
    return '\n' if found[1] == 'n' else chr(int(found[1][1:], 16))


def bytes_of(text):
    """The bytes of a text with escapes."""
    if not text.isascii():
        raise Wrong('a character that is not of ASCII')
    return ESCAPE.sub(escaped_byte, text).encode('latin-1')


def line_of(rest):
    """The bytes of what stands after a mark: a line feed ends them, unless they come after `-`. How many times they
    come is before that, after `*`."""
    times = TIMES.match(rest)
    rest = rest[times.end():] if times else rest
    if rest[:1] not in ('', ' ', '-'):
        raise Wrong('after the mark comes a blank or -')
    line = bytes_of(rest[1:]) + (b'' if rest[:1] == '-' else b'\n')
    return line * int(times[1]) if times else line


def text_of(data):
    """The text of bytes: a backslash, and each that is not printable, as an escape."""
    return re.sub(r'[^ -\[\]-~]', lambda found: f'\\x{ord(found[0]):02X}', data.decode('latin-1'))


def marked(mark, data):
    """The lines with this mark that stand for bytes."""
    *whole, last = map(text_of, data.split(b'\n'))
    return [f'{mark} {line}' for line in whole] + ([f'{mark}-{last}'] if last else [])


class Row:
    """A run, and how it must end: with this status and these outputs, of which standard output may have more after it,
    and has each of some parts. While it is read it may have words of several runs, each of which must end so."""

    def __init__(self, place, title):
        self.place, self.title, self.runs = place, title, []
        self.words, self.given, self.files = [], b'', {}
        self.status, self.out, self.more, self.parts, self.err = 'Done', b'', False, [], b''

    def take_words(self, rest):
        words = rest.split()
        if not words or words[0] not in PROGRAMS:
            raise Wrong(f'the first word of a run is {" or ".join(PROGRAMS)}')
        self.runs.append(['' if word == "''" else word for word in words])

    def take_input(self, rest):
        self.given += line_of(rest)

    def take_file(self, rest):
        name = rest.strip()
        if not FILE.fullmatch(name) or name in self.files:
            raise Wrong('no name of a file, or one that was there before')
        self.files[name] = b''

    def take_file_line(self, rest):
        if not self.files:
            raise Wrong('a line of no file')
        self.files[list(self.files)[-1]] += line_of(rest)

    def take_status(self, rest):
        self.status = rest.strip()
        if self.status not in STATUSES:
            raise Wrong(f'no status {self.status}')

    def take_output(self, rest):
        self.out += line_of(rest)

    def take_more(self, rest):
        if rest != '..':
            raise Wrong('more is ...')
        self.more = True

    def take_part(self, rest):
        part = bytes_of(rest[1:])
        if not part:
            raise Wrong('an empty part')
        self.parts.append(part)

    def take_error(self, rest):
        self.err += line_of(rest)

    def with_words(self, words):
        """The row of one of its runs."""
        row = copy.copy(self)
        row.words = words
        return row

    def passes(self, run):
        """Whether a run ended as it must."""
        has_output = run.out.startswith(self.out) if self.more else run.out == self.out
        has_parts = all(part in run.out for part in self.parts)
        return run.status == STATUSES[self.status] and has_output and has_parts and run.err == self.err


TAKES = {'$': Row.take_words, '<': Row.take_input, '@': Row.take_file, '+': Row.take_file_line, '?': Row.take_status,
         '>': Row.take_output, '.': Row.take_more, '~': Row.take_part, 'e': Row.take_error, '#': lambda row, rest: None}


def take_line(found, line, place):
    """Takes a line into the rows that were found before it, or into a new one."""
    if line.startswith('%'):
        found.append(Row(place, line[1:].strip()))
    elif line and line[0] not in TAKES:
        raise Wrong(f'the mark {line[0]} is unknown')
    elif found and line:
        TAKES[line[0]](found[-1], line[1:])
    elif line and line[0] != '#':
        raise Wrong('a line before the first row')


def rows(text, name):
    """The rows of a text, of the file with this name."""
    found = []
    for number, line in enumerate(text.split('\n'), 1):
        place = f'{name}:{number}'
        try:
            take_line(found, line, place)
        except Wrong as wrong:
            raise Stopped(f'{place}: {wrong}', UNREADABLE) from None
    for row in found:
        if not row.runs:
            raise Stopped(f'{row.place}: a row without words', UNREADABLE)
    return [row.with_words(words) for row in found for words in row.runs]
