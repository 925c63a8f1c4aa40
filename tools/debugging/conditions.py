"""What a condition means: a question to the state after a step, whose answer is a number.

    SCORE:2 > 100 and not BOARD changes
    @>8310(@>8302) = 'A' or V@SCREEN = >20
    old DEPTH < DEPTH

The page reads the same words by `stepping/page/conditions.js`, and tests/page compares both on many texts and runs.
"""
import re

from debugging.words import MEMORY_SIZE, VIDEO_SIZE, built_in, moved, number_at
from stepping.places import CELLS, CELLS_END, VIDEO

LONGEST, DEEPEST = 400, 20
WORD = re.compile(r'[A-Za-z][A-Za-z0-9]*(?:\.[A-Za-z_][A-Za-z0-9_]*)?')
COMPARISONS = {
    '<=': lambda one, two: one <= two, '>=': lambda one, two: one >= two, '<>': lambda one, two: one != two,
    '!=': lambda one, two: one != two, '==': lambda one, two: one == two, '=': lambda one, two: one == two,
    '<': lambda one, two: one < two, '>': lambda one, two: one > two,
}
SUMS = {'+': lambda one, two: one + two, '-': lambda one, two: one - two,
        '&': lambda one, two: (one & two) & 0xFFFFFFFF}
KEYWORDS = {'AND', 'OR', 'NOT', 'OLD', 'CHANGES'}


class Wrong(Exception):
    """A text that is no condition: what is wanted, and where."""


def condition(text, names):
    """What a text asks, as a function from a state to a number."""
    if len(text) > LONGEST:
        raise Wrong(f'a condition has at most {LONGEST} characters')
    parser = Parser(text, names)
    found = parser.either()
    if parser.rest():
        parser.fail('"and", "or" or a comparison is wanted')
    return found


class Parser:
    """Reads a condition from the left; `at` is where the rest begins."""

    def __init__(self, text, names):
        self.text, self.names, self.at, self.depth = text, names, 0, 0

    def rest(self):
        """The rest of the text without its first blanks."""
        while self.text[self.at:self.at + 1] in (' ', '\t'):
            self.at += 1
        return self.text[self.at:]

    def fail(self, what):
        rest = self.rest()
        raise Wrong(f'{what}, at "{rest[:20]}"' if rest else f'{what} at the end')

    def takes(self, text):
        """Takes a text if the rest begins with it."""
        is_next = self.rest().startswith(text)
        self.at += len(text) * is_next
        return is_next

    def word(self):
        found = WORD.match(self.rest())
        return found[0] if found else ''

    def takes_word(self, wanted):
        is_next = self.word().upper() == wanted
        self.at += len(wanted) * is_next
        return is_next

    def deeper(self, part):
        """A part within another one."""
        self.depth += 1
        if self.depth > DEEPEST:
            self.fail('too deep')
        found = part()
        self.depth -= 1
        return found

    def either(self):
        parts = [self.both()]
        while self.takes_word('OR'):
            parts.append(self.both())
        return parts[0] if len(parts) == 1 else lambda state: int(any(part(state) for part in parts))

    def both(self):
        parts = [self.negated()]
        while self.takes_word('AND'):
            parts.append(self.negated())
        return parts[0] if len(parts) == 1 else lambda state: int(all(part(state) for part in parts))

    def negated(self):
        if not self.takes_word('NOT'):
            return self.compared()
        part = self.deeper(self.negated)
        return lambda state: int(not part(state))

    def compared(self):
        left = self.sum()
        if self.takes_word('CHANGES'):
            return lambda state: int(left(state) != left(state.old))
        for sign, holds in COMPARISONS.items():
            if self.takes(sign):
                right = self.sum()
                return lambda state: int(holds(left(state), right(state)))
        return left

    def sum(self):
        left = self.value()
        while True:
            sign = self.rest()[:1]
            if sign not in SUMS or not sign:
                return left
            self.at += 1
            left = added(SUMS[sign], left, self.value())

    def value(self):
        """A number, a character, a part in brackets, a value before the step, or the bytes of a place."""
        rest = self.rest()
        if rest[:1] == '(':
            self.at += 1
            found = self.deeper(self.either)
            if not self.takes(')'):
                self.fail('")" is wanted')
            return found
        if self.takes_word('OLD'):
            part = self.deeper(self.value)
            return lambda state: part(state.old)
        if re.match("'[ -&(-~]'", rest):
            self.at += 3
            return constant(ord(rest[1]))
        if re.match('[0-9>]', rest):
            return constant(self.number())
        if re.match('[Vv]?[@*]', rest):
            return self.operand()
        return self.named()

    def number(self):
        """A decimal or hexadecimal number of 16 bits."""
        found = re.match('>([0-9A-Fa-f]{1,4})(?![0-9A-Fa-f])|([0-9]{1,5})(?![0-9])', self.rest())
        value = int(found[1], 16) if found and found[1] else int(found[2]) if found else 0x10000
        if value > 0xFFFF:
            self.fail('a number from 0 to 65535, or > and up to four hexadecimal digits, is wanted')
        self.at += len(found[0])
        return value

    def size(self, usual):
        """The length after a colon."""
        if not self.takes(':'):
            return usual
        found = re.match('[1-4](?![0-9])', self.rest())
        if not found:
            self.fail('a length from 1 to 4 is wanted')
        self.at += 1
        return int(found[0])

    def place(self, place_of, usual, fixed=None):
        """The number at a place, which is found by a state, or is the same in each. A GPL program sees the cells alone."""
        size = self.size(usual)
        if fixed is not None and not self.names.is_processor and fixed < VIDEO:
            if not CELLS <= fixed <= CELLS_END - size:
                self.fail('a GPL program sees >8300 to >83C1')
        return lambda state: number_at(state.memory, place_of(state), size)

    def fixed(self, place, usual):
        """The same of a place that does not depend on the state."""
        return self.place(lambda state: place, usual, place)

    def address(self):
        """A number, or a name and a number of bytes after it."""
        if re.match('[0-9>]', self.rest()):
            return self.number()
        name = self.word()
        value = self.names.values.get(name.upper())
        if not name or value is None:
            self.fail('an address or a name is wanted')
        self.at += len(name)
        return (value + self.offset()) % MEMORY_SIZE

    def offset(self):
        """How many bytes after a name: .1"""
        found = re.match(r'\.([0-9]{1,3})(?![0-9])', self.rest())
        self.at += len(found[0]) if found else 0
        return int(found[1]) if found else 0

    def register(self):
        """A register of the workspace, as a function from a state to its place."""
        found = re.match('[Rr]([0-9]{1,2})(?![0-9A-Za-z])', self.rest())
        if not found or int(found[1]) > 15:
            self.fail('a register from R0 to R15 is wanted')
        self.at += len(found[0])
        offset = 2 * int(found[1])
        return lambda state: (state.wp + offset) % MEMORY_SIZE

    def operand(self):
        """The bytes of an operand in memory."""
        in_video = self.rest()[0] in 'Vv'
        self.at += in_video
        is_direct = self.takes('@')
        self.at += not is_direct
        if self.names.is_processor:
            return self.processor_operand(is_direct, in_video)
        return self.gpl_operand(is_direct, in_video)

    def gpl_operand(self, is_direct, in_video):
        """An address, or the address of a pointer, which is an offset in the cells; and perhaps an index."""
        at = self.address()
        index = self.index() if self.takes('(') else None
        if is_direct and index is None:
            place = VIDEO + at % VIDEO_SIZE if in_video else at
            return self.fixed(place, 2 if place in self.names.words else 1)
        base = 0 if in_video or is_direct else CELLS

        def place_of(state):
            first = at if is_direct else base + number_at(state.memory, at, 2)
            more = number_at(state.memory, index, 2) if index is not None else 0
            return VIDEO + (first + more) % VIDEO_SIZE if in_video else (first + more) % MEMORY_SIZE
        return self.place(place_of, 1)

    def index(self):
        if not self.takes('@'):
            self.fail('"@" is wanted')
        index = self.address()
        if not self.takes(')'):
            self.fail('")" is wanted')
        return index

    def processor_operand(self, is_direct, in_video):
        """Memory at an address, with a register as index or without; where a register leads to; or video memory."""
        if in_video and not is_direct:
            self.fail('video memory has no pointers here')
        if in_video:
            return self.fixed(VIDEO + self.address() % VIDEO_SIZE, 1)
        if not is_direct:
            register = self.register()
            return self.place(lambda state: number_at(state.memory, register(state), 2), 2)
        at = self.address()
        if not self.takes('('):
            return self.fixed(at, 2)
        register = self.register()
        if not self.takes(')'):
            self.fail('")" is wanted')
        return self.place(lambda state: (at + number_at(state.memory, register(state), 2)) % MEMORY_SIZE, 2)

    def named(self):
        """A name of the source, which comes first, or a word that each run has."""
        name = self.word()
        upper = name.upper()
        if not name or upper in KEYWORDS:
            self.fail('a name, a number or a place is wanted')
        if upper in self.names.places:
            at, size = self.names.places[upper]
            self.at += len(name)
            offset = self.offset()
            place = moved(at, offset)
            usual = size if size <= 2 and not offset else 2 if place in self.names.words else 1
            return self.fixed(place, usual)
        if upper in self.names.values:
            self.at += len(name)
            return constant((self.names.values[upper] + self.offset()) % MEMORY_SIZE)
        return self.built_in(name, upper)

    def built_in(self, name, upper):
        """A register of the workspace, or another word that each run has."""
        if self.names.is_processor and re.fullmatch('R[0-9]{1,2}', upper):
            return self.place(self.register(), 2)
        found = built_in(upper, self.names.is_processor)
        if not found:
            self.fail('no name of the source, and no word of a condition')
        self.at += len(name)
        return found


def added(sign, left, right):
    return lambda state: sign(left(state), right(state))


def constant(value):
    return lambda state: value
