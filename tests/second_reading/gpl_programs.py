"""Random GPL programs that run: loops with counters, calls, tables, moves, status tests and stacks, and some that
stop."""
import gpl_images
import gpl_writing
from gpl_assembler import Assembler
from gpl_borders import AT_BUFFER, CALL_STACKS, DATA_STACKS, DONE, LAST, PAIRS, STOPS
from gpl_table import TWO
from gpl_writing import BY_FORM, OPERATIONS

# cells with a use: loop counters, pointer words and index words; the others are for values
COUNTERS, POINTERS, INDEXES = 0x8310, 0x8320, 0x8330
VALUES = (*range(0x8340, 0x8372), *range(0x8380, 0x83C0))
SPECIAL = (0x8300, 0x8372, 0x8373, 0x8378, 0x837B, 0x837C, 0x837D, 0x837E, 0x837F, 0x83BE, 0x83BF, 0x83C0, 0x83C1)
BRANCHES = sorted(BY_FORM['branch'])
# operations on operands of one or two bytes
PLAIN_ONE = [name for name in BY_FORM['one'] if name not in ('CASE', 'DCASE', 'FETCH', 'PUSH')]
PLAIN_TWO = sorted(name for name in TWO if name not in ('MUL', 'DIV', 'EX'))
COMPARES = ('CH', 'CHE', 'CGT', 'CGE', 'CEQ', 'CLOG')
TESTS = ('H', 'GT', 'CARRY', 'OVF')


class Author:
    """The lines of a program as they are written, and its subroutines."""

    def __init__(self, generator):
        self.generator = generator
        self.lines = []
        self.labels = 0
        self.subroutines = [self.label() for _ in range(generator.randrange(4))]
        self.fetching = self.label()
        self.wild = generator.choice((0, 0, 0, 0.01, 0.1))
        self.special = generator.choice((0.02, 0.1, 0.3))
        self.tables = generator.random() < 0.8

    def label(self):
        self.labels += 1
        return f'L{self.labels}'

    def add(self, *lines):
        self.lines += lines

    def cell(self, width=1):
        """A visible cell: one for values, or one that has a use of its own."""
        generator = self.generator
        if generator.random() < self.special:
            return min(generator.choice(SPECIAL), 0x83C2 - width)
        return generator.choice(VALUES)

    def operand(self, width=1):
        """An operand that is visible, mostly; a pointer or an index is stored before it."""
        generator = self.generator
        if generator.random() < self.wild:
            return gpl_writing.memory(generator, {})
        choice = generator.random()
        if choice < 0.5:
            return f'@>{self.cell(width):04X}'
        vdp = f'>{gpl_writing.address(generator, True):04X}'
        index, number = '', 0
        if generator.random() < 0.4:
            at = INDEXES + 2 * generator.randrange(8)
            index = f'(@>{at:04X})'
            number = generator.choice((0, 1, 2, 16, 0xFFFF, 0x3FFF))
            if choice < 0.85:
                number = generator.randrange(0x20)
            self.add(f' DST @>{at:04X},{number}')
            if choice < 0.65:
                return f'@>{self.cell(width) - number & 0xFFFF:04X}{index}'
        if choice < 0.7:
            return f'V@{vdp}{index}'
        pointer = POINTERS + 2 * generator.randrange(8)
        if choice < 0.85:
            self.add(f' DST @>{pointer:04X},>{self.cell(width) - 0x8300 - number & 0xFFFF:04X}')
            return f'*>{pointer:04X}{index}'
        self.add(f' DST @>{pointer:04X},{vdp}')
        return f'V*>{pointer:04X}{index}'

    def immediate(self, word):
        return f'>{gpl_writing.word(self.generator):X}' if word else f'>{gpl_writing.byte(self.generator):X}'

    def source(self, word):
        return self.immediate(word) if self.generator.random() < 0.5 else self.operand(1 + word)

    def two(self):
        """An operation on two operands."""
        generator = self.generator
        name = generator.choice(('MUL', 'DIV', 'EX')) if generator.random() < 0.2 else generator.choice(PLAIN_TWO)
        word = generator.random() < 0.45
        target = self.operand((2 if name in ('MUL', 'DIV') else 1) * (1 + word))
        if name in ('SRA', 'SLL', 'SRL', 'SRC') and generator.random() < 0.7:
            source = str(generator.choice((0, 1, 2, 7, 8, 9, 15, 16, 17)))
        else:
            source = self.operand(1 + word) if name == 'EX' else self.source(word)
        self.add(f" {'D' * word}{name} {target},{source}")

    def one(self):
        name = self.generator.choice(PLAIN_ONE)
        target = self.operand(1 + OPERATIONS[name][2])
        self.add(f' {name} {target}')

    def move(self):
        """A MOVE of any kind, of few bytes mostly."""
        generator = self.generator
        count = generator.choice((0, 1, 2, 3, 5, 8, 16, 33)) if generator.random() < 0.96 else \
            generator.choice((0xC2, 255, 256, 768, 4096, 16384))
        length = f'{count}'
        if generator.random() < 0.4:
            at = INDEXES + 2 * generator.randrange(8)
            self.add(f' DST @>{at:04X},{count}')
            length = f'@>{at:04X}'
        grom = f'G@>{generator.choice((0x5FFE, 0x6000, 0x7FFF, 0x8000, 0xFFFF, generator.randrange(0x10000))):04X}'
        choice = generator.random()
        if choice < 0.2:
            count = min(count, 8)
            first = generator.randrange(9 - count) if generator.random() < 0.95 else generator.randrange(10)
            self.add(f' MOVE {count},R@{first},{grom}')
            return
        target = self.wide(count)
        if choice < 0.45:
            self.add(f' MOVE {length},{target},{self.wide(count)}')
        elif choice < 0.75:
            self.add(f' MOVE {length},{target},{grom}')
        else:
            at = INDEXES + 2 * generator.randrange(8)
            self.add(f' DST @>{at:04X},{self.immediate(True)}')
            self.add(f' MOVE {length},{target},{grom}(@>{at:04X})')

    def wide(self, count):
        """A place of many bytes: cells, or VDP memory where it would not fit."""
        generator = self.generator
        if count <= 16 and generator.random() < 0.5:
            if generator.random() < 0.3:
                return self.operand(count + 1)
            return f'@>{0x8340 + generator.randrange(0x21):04X}'
        return f'V@>{gpl_writing.address(generator, True):04X}'

    def rest(self):
        """RAND, BACK, ALL, PUSH, the character buffer, and stack pointers as at the start."""
        generator = self.generator
        choice = generator.random()
        if choice < 0.3:
            self.add(f" {generator.choice(('RAND', 'RAND', 'BACK'))} {self.immediate(False)}")
        elif choice < 0.35:
            self.add(f' ALL {self.immediate(False)}')
        elif choice < 0.55:
            self.add(f' PUSH {self.operand()}')
        elif choice < 0.8:
            self.add(f' DST @>837E,>{generator.choice((0, 0x0102, 0x171F, 0xFFFF)):04X}')
            self.add(generator.choice(AT_BUFFER))
        elif choice < 0.85:
            self.add(f' ST @>8372,>{generator.choice(DATA_STACKS):02X}', f' PUSH @>{self.cell():04X}', ' ST @>8372,>9F')
        elif choice < 0.9:
            self.add(f' ST @>8373,>{generator.choice(CALL_STACKS):02X}', f' CALL {self.fetching}', ' BYTE 1,2',
                     ' ST @>8373,>7E')
        elif choice < 0.95:
            self.add(generator.choice(DONE))
        else:
            self.add(*generator.choice(PAIRS))

    def straight(self):
        generator = self.generator
        generator.choices((self.two, self.one, self.move, self.rest), (10, 6, 2, 3))[0]()

    def loop(self, depth):
        """A loop with a counter."""
        generator = self.generator
        counter, top = f'@>{COUNTERS + 2 * depth:04X}', self.label()
        count = generator.choice((1, 2, 3, 5, 10)) if generator.random() < 0.9 else generator.choice((0, 100, 255))
        if generator.random() < 0.5:
            self.add(f' ST {counter},{count}', top)
            self.body(depth + 1)
            self.add(f' DEC {counter}', f' CZ {counter}', f' BR {top}')
        else:
            self.add(f' DCLR {counter}', top)
            self.body(depth + 1)
            self.add(f' DINC {counter}', f" {generator.choice(('DCGE', 'DCHE'))} {counter},{count}", f' BR {top}')

    def sweep(self, depth):
        """Operations on the bytes of a table, one after the other."""
        generator = self.generator
        counter, top = f'@>{COUNTERS + 2 * depth:04X}', self.label()
        self.add(f' DCLR {counter}', top, f' MOVE 8,@>8340,G@UPPER({counter})')
        for _ in range(generator.randrange(1, 5)):
            name = generator.choice(sorted(TWO))
            self.add(f" {generator.choice(('', 'D'))}{name} @>8340,@>8344")
            name = generator.choice(PLAIN_ONE)
            self.add(f' {name} @>{generator.choice((0x8342, 0x8346)):04X}')
        self.add(f' DADD {counter},{generator.choice((1, 2, 4, 7))}', f' DCHE {counter},199', f' BR {top}')

    def choose(self, depth):
        """A comparison or a status test, and what is skipped by it."""
        generator = self.generator
        end = self.label()
        choice = generator.random()
        if choice < 0.3:
            self.add(' ' + generator.choice(TESTS))
        elif choice < 0.4:
            self.add(f" {generator.choice(('CZ', 'DCZ'))} {self.operand(2)}")
        else:
            word = generator.random() < 0.5
            target, source = self.operand(1 + word), self.source(word)
            self.add(f" {'D' * word}{generator.choice(COMPARES)} {target},{source}")
        self.add(f' {generator.choice(BRANCHES)} {end}')
        self.body(depth + 1)
        self.add(end)

    def cases(self, depth):
        """A table of branches after CASE."""
        generator = self.generator
        cell = self.cell(2)
        word = generator.random() < 0.3
        labels = [self.label() for _ in range(generator.randrange(1, 5))]
        end = self.label()
        self.add(f" {'D' * word}ST @>{cell:04X},{generator.randrange(len(labels))}", f" {'D' * word}CASE @>{cell:04X}")
        self.add(*[f' BR {label}' for label in labels])
        for label in labels:
            self.add(label)
            self.straight()
            self.add(f' B {end}')
        self.add(end)

    def call(self, depth):
        """A call, with the bytes after it for FETCH, or of a subroutine."""
        generator = self.generator
        if self.subroutines and generator.random() < 0.7:
            self.add(f' CALL {generator.choice(self.subroutines)}')
        else:
            self.add(f' CALL {self.fetching}', f' BYTE {self.immediate(False)},{self.immediate(False)}')

    def raw(self):
        """An instruction as bytes, with operands that are longer than they need be."""
        generator = self.generator
        offset = generator.choice(VALUES) - 0x8300
        spelling = generator.choice(([0x80, offset], [0x8F, 0, offset], [0xAF, 0xFF, offset], [0xA0, offset],
                                     [0xAE, offset]))
        code = generator.choice((0x80, 0x82, 0x84, 0x86, 0x8E, 0x90, 0x97, 0xA2, 0xBE, 0xBF, 0xC6, 0xDA, 0xDE, 0xEA))
        more = [generator.randrange(256) for _ in range(0 if code < 0xA0 else 1 + (code & 1))]
        self.add(' BYTE ' + ','.join(f'>{byte:02X}' for byte in [code, *spelling, *more]))

    def body(self, depth):
        """Some pieces of a program; deeper ones have no loops."""
        generator = self.generator
        for _ in range(generator.choice((1, 2, 3, 6) if depth else (2, 5, 10, 20))):
            choice = generator.random()
            if depth > 3 or choice < 0.6:
                self.straight()
            elif choice < 0.69:
                self.loop(depth)
            elif choice < 0.72 and self.tables and depth < 2:
                self.sweep(depth)
            elif choice < 0.82:
                self.choose(depth)
            elif choice < 0.87:
                self.cases(depth)
            elif choice < 0.95:
                self.call(depth)
            elif choice < 0.99 or not self.wild:
                self.raw()
            else:
                self.add(generator.choice(STOPS))


def subroutines(author):
    """The subroutines: each calls later ones alone, but a few call themselves. Some stand in another GROM."""
    generator = author.generator
    while author.subroutines:
        label = author.subroutines.pop(0)
        if generator.random() < 0.2:
            offset = generator.choice((0, 0x100, 0x1000)) + 0x200 * author.labels % 0x400
            author.add(f' GROM >{0x2000 * generator.choice((0, 1, 5, 6, 7)):04X}', f' AORG >{offset:04X}')
        author.add(label)
        author.body(2)
        if generator.random() < 0.02:
            author.add(f' CALL {label}')
        author.add(generator.choice((' RTN', ' RTN', ' RTNC')))
    cells = author.cell(), author.cell()
    author.add(f'{author.fetching} FETCH @>{cells[0]:04X}', f' FETCH @>{cells[1]:04X}', ' RTN')


def short_program(generator):
    """The lines of a program with a few steps and one at a border, or one that stops or leads away."""
    author = Author(generator)
    author.add(f' GROM >{0x2000 * generator.choice((0, 3, 7)):04X}', 'START', ' MOVE 194,@>8300,G@LOWER',
               ' DST @>8372,>9F7E')
    for _ in range(generator.randrange(3)):
        author.straight()
    author.add(*generator.choice((*LAST, *((line,) for line in STOPS), *PAIRS, *((line,) for line in DONE))))
    author.add(' EXIT', *table(generator, 'LOWER', 194))
    subroutines(author)
    return [*author.lines, ' END START']


def bytes_lines(numbers):
    rows = [numbers[first:first + 16] for first in range(0, len(numbers), 16)]
    return [' BYTE ' + ','.join(f'>{number:02X}' for number in row) for row in rows]


def table(generator, label, count):
    """Lines of a table of bytes, which has the borders of signed and unsigned bytes and words."""
    numbers = []
    while len(numbers) < count:
        if generator.random() < 0.5:
            numbers += generator.choice(gpl_writing.WORDS).to_bytes(2, 'big')
        else:
            numbers += generator.choices((0, 1, 0x7F, 0x80, 0x81, 0xFF, generator.randrange(256)), k=2)
    return [label, *bytes_lines(numbers[:count])]


def size_of(lines):
    assembler = Assembler()
    for line in lines:
        assembler.line(line)
    return assembler.location - 0x6000


def program(generator):
    """The lines of a program. Its first instructions may stand at the end of a GROM, and go on at its begin."""
    author = Author(generator)
    grom = 0x2000 * generator.choice((0, 1, 3, 3, 3, 3, 4, 7))
    first = []
    if generator.random() < 0.3:
        author.straight()
        author.straight()
        first, author.lines = author.lines, []
        first = [f' AORG >{0x2000 - size_of(first):04X}', 'START', *first, ' AORG 0']
    else:
        author.add(f' AORG >{generator.choice((0, 0x20, 0x100)):04X}', 'START')
    tables = []
    if author.tables:
        author.add(' MOVE 50,@>8340,G@LOWER', ' MOVE 64,@>8380,G@UPPER', ' MOVE 256,V@>3F80,G@LOWER')
        tables = table(generator, 'LOWER', 50) + table(generator, 'UPPER', 206)
    if generator.random() < 0.5:
        author.add('AGAIN')
        author.body(0)
        author.add(' B AGAIN')
    author.body(0)
    author.add(generator.choice(STOPS) if generator.random() < 0.25 else ' EXIT')
    author.add(*tables)
    subroutines(author)
    return [f' GROM >{grom:04X}', *first, *author.lines, ' END START']


def raw_program(generator):
    """The lines of a program whose instructions are bytes, with any operands, over cells that hold pointers and indexes
    in many words."""
    cells = []
    while len(cells) < 0xC2:
        pointer = [0, generator.randrange(0xC4)]
        cells += pointer if generator.random() < 0.7 else [generator.randrange(0x40), generator.randrange(256)]
    if generator.random() < 0.8:
        cells[0x72:0x74] = generator.choice(([0x9F, 0x7E], [0xC0, 0xBE], [0xC1, 0xC0], [0x7B, 0x70], [0xFF, 0xFE]))
    code = b''.join(gpl_images.instruction(generator) for _ in range(generator.choice((1, 5, 20))))
    return [' GROM >6000', f' MOVE {generator.choice((0xC0, 0xC2))},@>8300,G@CELLS', *bytes_lines(list(code)),
            ' B START', 'CELLS', *bytes_lines(cells[:0xC2]), 'START EQU >6000', ' END START']
