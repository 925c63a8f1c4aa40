"""Random programs of the processor: registers and pointers are set, then a loop runs whose body goes through the rows
of the TMS 9900 data manual's instruction table, with jumps, subroutines and other workspaces."""
import tms_expressions
import tms_memory
import tms_table

LOOP_COUNTER = 0x3FF0
# workspaces: usual ones, and images of the scratchpad, read-only memory, nothing, and where registers would be ports
WORKSPACES = (0x83E0, 0x8300, 0x8320, 0x83C0, 0x2000, 0x2101, 0x3FE0, 0xB000, 0xFFE0)
ODD_WORKSPACES = (
    0x8000, 0x81F0, 0x83F0, 0x83E1, 0x3FF0, 0x1FF0, 0x0000, 0x4000, 0xFFF0, 0xFFFE, 0x87E0, 0x87F0, 0x8BFE, 0x8800,
    0x97E8, 0x9C00,
)
# places of words that the program may read and write
WORD_PLACES = (0x8300, 0x8302, 0x8310, 0x83FE, 0x8001, 0x81FF, 0x8210, 0x2000, 0x2001, 0x2100, 0x3FFE, 0xB000, 0xB0FF,
               0xFFFE, 0xFFFF, 0x0000, 0x0040, 0x1FFE, 0x4000, 0x7FFE, 0x8400, 0x9000, 0x9FFE)
PORTS = tuple(sorted(tms_memory.PORTS))
BESIDE_PORTS = (0x8801, 0x8803, 0x8C01, 0x9801, 0x9C03, 0x8804, 0x87FF, 0x9BFF)

TWO = [name for name, row in tms_table.ROWS.items() if row.form == 'Two' and not row.code & 0x1000]
BYTES = [name for name, row in tms_table.ROWS.items() if row.form == 'Two' and row.code & 0x1000]
ONE = ['CLR', 'NEG', 'INV', 'INC', 'INCT', 'DEC', 'DECT', 'SWPB', 'SETO', 'ABS']
REG = ['COC', 'CZC', 'XOR', 'MPY', 'DIV']
IMM = ['LI', 'AI', 'ANDI', 'ORI', 'CI']
JUMPS = [name for name, row in tms_table.ROWS.items() if row.form == 'Jump' and name not in tms_table.BIT_ROWS]
STOPPING = sorted(tms_table.STOPPING)


def code(name):
    return tms_table.ROWS[name].code


class Program:
    """The words of a program as they are made."""

    def __init__(self, generator, base):
        self.generator = generator
        self.base = base
        self.words = []
        self.daring = generator.choice((0, 0, 0, 0.02, 0.1))

    def chance(self, share):
        return self.generator.random() < share

    def number(self):
        return tms_expressions.number(self.generator)

    def put(self, *words):
        self.words += words

    def here(self):
        return self.base + 2 * len(self.words)

    def general(self, byte=False):
        """The six bits of a general operand, and the words that follow."""
        generator = self.generator
        register = generator.randrange(16)
        choice = generator.randrange(10)
        if choice < 4:
            return register, []
        if choice < 6:
            return (0x10 if choice == 4 else 0x30) | register, []
        if choice == 6:
            return 0x20 | register, [self.number() if self.chance(self.daring) else generator.choice((0, 1, 2, 0xFFFE))]
        places = WORD_PLACES
        if byte and self.chance(0.35) or self.chance(self.daring):
            places = PORTS if self.chance(0.85) else BESIDE_PORTS
        return 0x20, [generator.choice(places)]

    def load(self, register, value):
        self.put(code('LI') | register, value)

    def pointers(self, most):
        """Sets so many registers: to places or numbers."""
        generator = self.generator
        for register in generator.sample(range(16), most):
            places = WORD_PLACES if self.chance(0.6) else (self.number(),)
            self.load(register, generator.choice(places))

    def instruction(self):
        """One instruction of the table, or a few that belong together."""
        generator = self.generator
        choice = generator.randrange(41)
        if choice < 9:
            self.two(generator.choice(TWO), False)
        elif choice < 18:
            self.two(generator.choice(BYTES), True)
        elif choice < 22:
            field, more = self.general()
            self.put(code(generator.choice(ONE)) | field, *more)
        elif choice < 26:
            field, more = self.general()
            self.put(code(generator.choice(REG)) | generator.randrange(16) << 6 | field, *more)
        elif choice < 29:
            name = generator.choice(('SRA', 'SRL', 'SLA', 'SRC'))
            self.put(code(name) | generator.choice((0, 0, 1, 2, 8, 15, 14)) << 4 | generator.randrange(16))
        elif choice < 33:
            self.put(code(generator.choice(IMM)) | generator.randrange(16), self.number())
        elif choice == 33:
            self.put(code(generator.choice(('STST', 'STWP'))) | generator.randrange(16))
        elif choice == 34:
            self.put(code('LIMI'), self.number())
        elif choice == 35:
            self.port_write()
        elif choice < 39:
            self.skip()
        else:
            self.seldom()

    def two(self, name, byte):
        source, more = self.general(byte)
        target, others = self.general(byte)
        self.put(code(name) | target << 6 | source, *more, *others)

    def port_write(self):
        """Sets an address of the video processor or the GROMs, and reads or writes after it."""
        generator = self.generator
        vdp = self.chance(0.7)
        register = generator.randrange(16)
        second = generator.choice((0x00, 0x40, 0x80, 0xC0)) | generator.choice((0, 1, 7, 0x3F, generator.randrange(64)))
        self.load(register, second << 8 | generator.choice((0, 1, 0xFF, generator.randrange(256))))
        to_port = code('MOVB') | 0x20 << 6 | register
        port = 0x8C02 if vdp else 0x9C02
        self.put(code('SWPB') | register, to_port, port, code('SWPB') | register)
        if self.chance(0.9):
            self.put(to_port, port)
        for _ in range(generator.randrange(4)):
            if self.chance(0.5):
                self.put(to_port, 0x8C00 if vdp else 0x9C00)
            else:
                self.put(code('MOVB') | register << 6 | 0x20, generator.choice((0x8800, 0x8802, 0x9800, 0x9802)))

    def skip(self):
        """A jump over the next instruction, taken or not by what stands before it."""
        at = len(self.words)
        self.put(0)
        if self.chance(0.8):
            self.two(self.generator.choice(TWO + BYTES), self.chance(0.5))
        self.words[at] = code(self.generator.choice(JUMPS)) | len(self.words) - at - 1

    def seldom(self):
        """What changes workspaces or leaves the loop."""
        generator = self.generator
        choice = generator.randrange(8)
        if choice < 2:
            self.put(code('LWPI'), generator.choice(WORKSPACES))
        elif choice < 4:
            self.load(12, self.here() + 10)
            self.put(code('BL') | 0x20, self.here() + 4, code('B') | 0x1C)
        elif choice == 4:
            self.put(code('BLWP') | 0x20, self.here() + 6, 0x1004, 0x8300, self.here() + 10,
                     code('INC') | 14, 0x0380)
        elif choice == 5:
            self.put(code('XOP') | generator.choice((0, 1, 2, 15)) << 6 | self.general()[0] & 0x1F)
        elif self.chance(self.daring):
            self.put(generator.choice((code(generator.choice(STOPPING)), generator.randrange(0x10000), 0x0380, 0x10FF,
                                       code('LWPI'))), generator.choice(ODD_WORKSPACES))
        else:
            self.put(code('LWPI'), generator.choice(WORKSPACES))

    def loop(self, count):
        """A loop that runs so many times, if nothing in it leads away."""
        self.put(code('LI'), count, code('MOV') | 0x20 << 6, LOOP_COUNTER)
        top = len(self.words)
        self.pointers(self.generator.choice((0, 1, 2)))
        for _ in range(self.generator.choice((1, 3, 8, 15, 30, 30))):
            if len(self.words) - top < 110:
                self.instruction()
        self.put(code('DEC') | 0x20, LOOP_COUNTER)
        back = top - len(self.words) - 1
        if back >= -128:
            self.put(code('JNE') | back & 0xFF)

    def end(self):
        """A jump to itself, a word that is refused, or whatever lies after."""
        choice = self.generator.randrange(6)
        if choice < 3:
            self.put(0x10FF)
        elif choice == 3:
            self.put(self.generator.choice((0, 0x0210, 0xFFFF, code(self.generator.choice(STOPPING)))))
        elif choice == 4:
            self.put(code('B') | 0x20, self.base)
