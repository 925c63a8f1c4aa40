"""The values of tests: numbers, names, texts, and lists of them, as bytes."""
import itertools
import re

from stepping.places import REGISTERS, VIDEO

# a name of the source, also of a local label as PLAY.won
NAME = r'[A-Za-z][0-9A-Za-z_]*(?:\.[0-9A-Za-z_]+)?'
TERM = re.compile(rf'([+-]?)(?:>([0-9A-Fa-f]{{1,8}})|([0-9]{{1,10}})|({NAME}))')
ITEM = re.compile(r"(?:('(?:[^']|'')*')|([^,'*]+))(?:\*([0-9]{1,5}))?(,|\Z)")
MOST_DATA = REGISTERS - VIDEO
WIDEST = 4


class BadWord(Exception):
    """A word of a test that says nothing: the cause."""


def known(name, names):
    """The value of a name of the source."""
    if name.upper() not in names:
        raise BadWord(f'the source has no name {name}')
    return names[name.upper()]


def number(text, names):
    """The value of numbers and names with + and - between them."""
    result, at = 0, 0
    while at < len(text) or not at:
        found = TERM.match(text, at)
        if not found or (at and not found[1]):
            raise BadWord(f'{text or "nothing"} is no value')
        sign, digits, decimal, name = found.groups()
        value = int(digits, 16) if digits else int(decimal) if decimal else known(name, names)
        result, at = result + (-value if sign == '-' else value), found.end()
    return result


def fitting(text, size, names):
    """A number as bytes, which it must fit: with a sign or without."""
    value = number(text, names)
    if not -(1 << 8 * size - 1) <= value < 1 << 8 * size:
        raise BadWord(f'{text} is {value}, which does not fit {size} byte{"s" * (size > 1)}')
    return (value % (1 << 8 * size)).to_bytes(size, 'big')


def characters(quoted):
    """The characters of a text in quotes, as bytes."""
    return quoted[1:-1].replace("''", "'").encode('latin-1')


def data_of(text, size, names):
    """The bytes of a list, in which each number takes so many bytes."""
    made, at = b'', 0
    while at < len(text) or not at or text[at - 1] == ',':
        found = ITEM.match(text, at)
        if not found:
            raise BadWord(f'{text or "nothing"} is no value')
        quoted, plain, times, _ = found.groups()
        made += (characters(quoted) if quoted else fitting(plain, size, names)) * int(times or 1)
        at = found.end()
        if len(made) > MOST_DATA:
            raise BadWord(f'a value of more than {MOST_DATA:,} bytes')
    return made


def range_of(text, names):
    """The lowest and the highest number of a range, as 1..6."""
    low, high = (number(part, names) for part in text.split('..', 1))
    if not 0 <= low <= high:
        raise BadWord(f'{text} is no range; it goes from a number of 0 or more up to another one')
    return low, high


def shown_number(value, size, written):
    """A number as a test has written one: in hexadecimal digits, as names are shown too, or decimal."""
    return f'>{value:0{2 * size}X}' if re.search('[>A-Za-z]', written) else str(value)


def repeated(items):
    """Items with commas, of which equal ones in a row are one that says how many."""
    for item, same in itertools.groupby(items):
        count = len(list(same))
        yield f'{item}*{count}' if count > 1 else item


def shown_text(data):
    """Bytes as texts in quotes, and those that are no characters as numbers."""
    parts = re.findall(rb'[ -~]+|[^ -~]', data)
    items = ["'" + part.decode().replace("'", "''") + "'" if 0x20 <= part[0] < 0x7F else f'>{part[0]:02X}'
             for part in parts]
    return ','.join(repeated(items)) or "''"


def shown(data, size, written):
    """Bytes as a test has written others."""
    if "'" in written:
        return shown_text(data)
    if len(data) % size:
        return ','.join(repeated(f'>{byte:02X}' for byte in data))
    return ','.join(repeated(shown_number(int.from_bytes(data[at:at + size], 'big'), size, written)
                             for at in range(0, len(data), size)))
