"""Random programs of the TMS9900 that stay in their own memory, whatever their numbers are."""
import random
import typing

# two workspaces, data in the scratchpad and in expansion memory, the code, and where it waits at its end
FIRST, SECOND = 0x8300, 0x8320
DATA = (range(0x8340, 0x8380), range(0xB000, 0xB080))
CODE, END = 0xA000, 0xBF00
# vectors in the ROM: of each extended operation the second workspace, and a routine that returns
VECTORS, ROUTINE = 0x0040, 0x1F00
TWO = {'SZC': 0x4000, 'SZCB': 0x5000, 'S': 0x6000, 'SB': 0x7000, 'C': 0x8000, 'CB': 0x9000, 'A': 0xA000, 'AB': 0xB000,
       'MOV': 0xC000, 'MOVB': 0xD000, 'SOC': 0xE000, 'SOCB': 0xF000}
REGISTER = {'COC': 0x2000, 'CZC': 0x2400, 'XOR': 0x2800, 'MPY': 0x3800, 'DIV': 0x3C00}
SHIFT = {'SRA': 0x0800, 'SRL': 0x0900, 'SLA': 0x0A00, 'SRC': 0x0B00}
ONE = {'CLR': 0x04C0, 'NEG': 0x0500, 'INV': 0x0540, 'INC': 0x0580, 'INCT': 0x05C0, 'DEC': 0x0600, 'DECT': 0x0640,
       'SWPB': 0x06C0, 'SETO': 0x0700, 'ABS': 0x0740}
JUMP = {'JMP': 0x1000, 'JLT': 0x1100, 'JLE': 0x1200, 'JEQ': 0x1300, 'JHE': 0x1400, 'JGT': 0x1500, 'JNE': 0x1600,
        'JNC': 0x1700, 'JOC': 0x1800, 'JNO': 0x1900, 'JL': 0x1A00, 'JH': 0x1B00, 'JOP': 0x1C00}
IMMEDIATE = {'LI': 0x0200, 'AI': 0x0220, 'ANDI': 0x0240, 'ORI': 0x0260, 'CI': 0x0280}
LI, LWPI, LIMI, STWP, STST, B, BL, BLWP, XOP, RTWP = (0x0200, 0x02E0, 0x0300, 0x02A0, 0x02C0, 0x0440, 0x0680, 0x0400,
                                                      0x2C00, 0x0380)
# numbers at which a status bit changes
EDGES = (0, 1, 2, 0x7F, 0x80, 0xFF, 0x100, 0x7FFF, 0x8000, 0x8001, 0xFF00, 0xFFFE, 0xFFFF)
# the registers that point to data: they are loaded before each instruction that uses them
POINTERS = (8, 9)


class Program(typing.NamedTuple):
    """A program: its words by their addresses, and the address of the first instruction after those that set the
    registers and all status bits."""
    words: dict
    begin: int


class Maker:
    """A program while it is made."""

    def __init__(self, seed):
        self.random, self.at, self.words = random.Random(seed), CODE, {}
        for first in (DATA[1],):
            self.words.update((at, self.number()) for at in first[::2])
        for number in range(16):
            self.words.update({VECTORS + 4 * number: SECOND, VECTORS + 4 * number + 2: ROUTINE})
        self.words[ROUTINE] = RTWP
        self.words[END] = 0x10FF

    def number(self):
        """A word."""
        return self.random.choice(EDGES) if self.random.random() < 0.5 else self.random.randrange(0x10000)

    def put(self, *words):
        """Places words after those before."""
        for word in words:
            self.words[self.at] = word
            self.at += 2

    def data(self):
        """An address of data that leaves room for a word that is stepped over."""
        area = self.random.choice(DATA)
        return self.random.randrange(area.start, area.stop - 4)

    def operand(self, pointer):
        """An operand in some mode: its six bits, its further words, and the instruction before it."""
        mode = self.random.randrange(5)
        if mode == 0:
            return self.random.randrange(16), (), ()
        if mode in (1, 2):
            return (mode * 2 - 1) << 4 | pointer, (), (LI | pointer, self.data())
        if mode == 3:
            return 0x20, (self.data(),), ()
        index = self.random.randrange(8)
        return 0x20 | pointer, ((self.data() - index) & 0xFFFF,), (LI | pointer, index)

    def operation(self):
        """One instruction, and those that it needs before it."""
        kind = self.random.choices((self.two, self.register, self.shift, self.one, self.immediate, self.jump, self.other),
                                   (8, 3, 3, 4, 3, 3, 1))[0]
        kind()

    def two(self):
        source, first, before = self.operand(POINTERS[0])
        to, second, also = self.operand(POINTERS[1])
        self.put(*before, *also, self.random.choice([*TWO.values()]) | to << 6 | source, *first, *second)

    def register(self):
        source, further, before = self.operand(POINTERS[0])
        self.put(*before, self.random.choice([*REGISTER.values()]) | self.random.randrange(8) << 6 | source, *further)

    def shift(self):
        self.put(self.random.choice([*SHIFT.values()]) | self.random.randrange(256))

    def one(self):
        operand, further, before = self.operand(POINTERS[0])
        self.put(*before, self.random.choice([*ONE.values()]) | operand, *further)

    def immediate(self):
        self.put(self.random.choice([*IMMEDIATE.values()]) | self.random.randrange(16), self.number())

    def jump(self):
        self.put(self.random.choice([*JUMP.values()]) | 1, 0x0580 | self.random.randrange(8))

    def other(self):
        """An instruction that leads elsewhere, or that reads the processor's registers."""
        number = self.random.randrange(16)
        kind = self.random.randrange(7)
        if kind == 0:
            self.put(STWP | number)
        elif kind == 1:
            self.put(STST | number)
        elif kind == 2:
            self.put(LWPI, SECOND, 0x0580 | number, LWPI, FIRST)
        elif kind == 3:
            self.put(BLWP | 0x20, VECTORS + 4 * number)
        elif kind == 4:
            operand, further, before = self.operand(POINTERS[0])
            self.put(*before, XOP | number << 6 | operand, *further)
        elif kind == 5:
            self.put(BL | 0x20, self.at + 4)
        else:
            self.put(B | 0x20, self.at + 4)

    def made(self, count):
        """A program of so many operations."""
        self.put(LIMI, 0, LWPI, FIRST)
        for number in range(16):
            self.put(LI | number, self.number())
        # all status bits: an addition sets L>, A>, EQ, C and OV, an operation on a byte OP
        self.put(0x0220, self.number(), 0xD000)
        begin = self.at
        for _ in range(count):
            self.operation()
        self.put(B | 0x20, END)
        return Program(self.words, begin)


def object_source(program):
    """The program as source of the assembler."""
    lines, after = [], None
    for at, word in sorted(program.words.items()):
        if at != after:
            lines.append(f'       AORG >{at:04X}')
        label = 'START ' if at == CODE else ''
        lines.append(f'{label or " ":7}DATA >{word:04X}')
        after = at + 2
    return '\n'.join([*lines, '       END  START', '']).encode()
