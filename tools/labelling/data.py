"""The rows of data: texts, words and bytes, each with its bytes and its text."""
import re

LEAST, WIDE, BYTES, WORDS = 4, 32, 8, 4
PRINTED = re.compile(rb'[\x20-\x7E]{%d,}' % LEAST)


def is_text(run):
    """Whether printed characters are read as a text: most of them are letters, digits and blanks."""
    letters = len(re.sub(rb'[^A-Za-z0-9 ]', b'', run))
    return 4 * letters >= 3 * len(run) and len(set(run)) > 2 and re.search(b'[A-Za-z]', run)


def texts(data):
    """The places of the texts in data."""
    return [found.span() for found in PRINTED.finditer(data) if is_text(found[0])]


def text_row(run):
    return "TEXT '" + run.decode('ascii').replace("'", "''") + "'"


def byte_row(data):
    return 'BYTE ' + ','.join([f'>{byte:02X}' for byte in data])


def word_row(data):
    return 'DATA ' + ','.join([f'>{data[i] << 8 | data[i + 1]:04X}' for i in range(0, len(data), 2)])


def cut(data, size, written):
    return [(data[i:i + size], written(data[i:i + size])) for i in range(0, len(data), size)]


def plain_rows(address, data, has_words):
    """Bytes, or words if the language has them at even addresses."""
    if not has_words:
        return cut(data, BYTES, byte_row)
    first = address % 2
    last = len(data) - (len(data) - first) % 2
    return [*cut(data[:first], BYTES, byte_row), *cut(data[first:last], 2 * WORDS, word_row),
            *cut(data[last:], BYTES, byte_row)]


def rows(address, data, has_words, marks):
    """The rows of data at an address; `marks` has a 1 for each byte of a text, and 0 for others."""
    found, at = [], 0
    while at < len(data):
        end = marks.find(1 - marks[at], at)
        part = data[at:end if end >= 0 else len(data)]
        found += cut(part, WIDE, text_row) if marks[at] else plain_rows(address + at, part, has_words)
        at += len(part)
    return found
