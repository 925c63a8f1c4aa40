"""What must hold at the end of a case."""
import re
import typing

from testing.places import COLUMNS, Bit, Bytes, Row
from testing.values import WIDEST, BadWord, data_of, number, range_of, shown, shown_number

# the most bytes of which both texts are shown whole
MOST_SHOWN = 64


class Fault(typing.NamedTuple):
    """What does not hold: as a text, the addresses of the bytes that are not as they must be, and which of their bits
    are meant."""
    text: str
    at: tuple = ()
    bits: int = 0xFF


class SameBytes(typing.NamedTuple):
    """Bytes must be these, or must not be these: the place, the bytes, and how they are written."""
    place: typing.Any
    data: bytes
    is_other: bool
    written: str

    def fault(self, state):
        begin = self.place.begin(state.memory)
        have = bytes(state.memory[begin:begin + len(self.data)])
        if (have == self.data) != self.is_other:
            return None
        differing = [number for number, pair in enumerate(zip(have, self.data)) if pair[0] != pair[1]]
        at = tuple(begin + number for number in differing or range(len(have)))
        return Fault(f'{self.place.word}{self.said(have, differing)}', at)

    def said(self, have, differing):
        """What is said of other bytes."""
        if self.is_other:
            return f' is {self.shown(have[:MOST_SHOWN])}, expected another value'
        if len(have) <= MOST_SHOWN:
            return f' is {self.shown(have)}, expected {self.shown(self.data)}'
        first, count = differing[0], len(differing)
        pair = [self.shown(data[first:first + 1]) for data in (have, self.data)]
        return f': byte {first} is {pair[0]}, expected {pair[1]}; {count:,} of {len(have):,} bytes differ'

    def shown(self, data):
        """Bytes as they are written; of a whole row without the blanks at its end."""
        is_row = isinstance(self.place, Row) and self.place.is_whole
        return shown(data.rstrip(b' ') if is_row else data, self.place.size, self.written)


class NumberIn(typing.NamedTuple):
    """A number must be in a range, or must not be: the place, the range, and how relation and value are written."""
    place: typing.Any
    low: int
    high: int
    is_other: bool
    relation: str
    written: str

    def fault(self, state):
        have = self.place.number(state)
        if (self.low <= have <= self.high) != self.is_other:
            return None
        wanted = {'=': '', '!=': 'not '}.get(self.relation, self.relation) + self.written
        text = f'{self.place.word} is {shown_number(have, self.place.size, self.written)}, expected {wanted}'
        return Fault(text, self.place.addresses, getattr(self.place, 'mask', 0xFF))


def is_range(relation, text):
    """Whether a value is a range of numbers."""
    return relation in ('<=', '>=') or ("'" not in text and '..' in text)


def number_in(place, relation, text, names):
    """The check of a number."""
    if '..' in text and relation in ('<=', '>='):
        raise BadWord(f'{relation}{text}: a range goes with = or !=')
    low, high = range_of(text, names) if '..' in text else (number(text, names),) * 2
    if low < 0:
        raise BadWord(f'{text} is below 0, and numbers are compared without sign')
    if isinstance(place, Bit) and high > 1:
        raise BadWord(f'{place.word}: a bit is 0 or 1')
    if isinstance(place, Bytes) and (place.size > WIDEST or high >= 1 << 8 * place.size):
        raise BadWord(f'{text} does not fit {place.word}')
    if relation == '<=':
        return NumberIn(place, 0, high, False, relation, text)
    if relation == '>=':
        return NumberIn(place, 0, low - 1, True, relation, text)
    return NumberIn(place, low, high, relation == '!=', relation, text)


def data_at(place, text, names):
    """The bytes of a value at a place, which has room for them."""
    if isinstance(place, Bytes) and place.size > WIDEST and not re.fullmatch("'.*'", text):
        raise BadWord(f'{place.word}: a number has 1 to {WIDEST} bytes')
    data = data_of(text, place.size, names)
    if isinstance(place, Row) and place.is_whole:
        data = data.ljust(COLUMNS)
    if not data:
        raise BadWord(f'{place.word}: a value without bytes')
    if len(data) > place.room:
        raise BadWord(f'{place.word}: {text} has {len(data):,} bytes, and there is room for {place.room:,}')
    return data


def check_of(place, relation, text, names):
    """What must hold of a place."""
    if isinstance(place, Row) and is_range(relation, text):
        raise BadWord(f'{place.word}: a row has no range')
    if not isinstance(place, (Bytes, Row)) or is_range(relation, text):
        return number_in(place, relation, text, names)
    return SameBytes(place, data_at(place, text, names), relation == '!=', text)
