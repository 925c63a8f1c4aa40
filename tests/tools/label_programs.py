"""A generated GPL program over several GROMs: subroutines with tables of branches, loops, and bytes after calls."""
import random

WORDS = 'PLAYER SCORE LEVEL PRESS ANY KEY TO BEGIN GAME OVER HIGH READY LIVES TIME BONUS'.split()


class Part:
    """The lines of one subroutine, and of its data."""

    def __init__(self, rng, number, count, taker):
        self.rng, self.number, self.count, self.taker = rng, number, count, taker
        self.lines, self.data = [f'F{number:03}   CZ   @>8300'], []
        kinds = [self.text, self.sum, self.case, self.loop, self.call, self.bytes, self.move, self.test]
        for i in range(rng.randint(2, 6)):
            self.name = f'{number:03}{i}'
            rng.choice(kinds)()
        self.lines.append('       RTN')

    def cell(self):
        return f'@>83{self.rng.randrange(0x10, 0x60):02X}'

    def text(self):
        text = ' '.join(self.rng.choices(WORDS, k=2))
        self.lines.append(f'       MOVE {len(text)},V@>{self.rng.randrange(0x2F0):04X},G@T{self.name}')
        self.data.append(f"T{self.name}  TEXT '{text}'")

    def sum(self):
        self.lines.append(f'       {self.rng.choice(["ADD", "SUB", "XOR"])}  {self.cell()},{self.rng.randrange(256)}')

    def case(self):
        self.lines.append('       CASE @>8300')
        self.lines += [f'       BR   C{self.name}'] * self.rng.randint(1, 3)
        self.lines.append(f'C{self.name}  INC  {self.cell()}')

    def loop(self):
        self.lines += [f'       ST   @>8360,{self.rng.randint(2, 5)}',
                       f'A{self.name}  INCT V@>{0x400 + self.number:04X}',
                       '       DEC  @>8360', '       CZ   @>8360', f'       BR   A{self.name}']

    def call(self):
        if self.number + 1 < self.count:
            target = self.rng.randrange(self.number + 1, min(self.count, self.number + 12))
            self.lines.append(f'       CALL F{target:03}')

    def bytes(self):
        self.lines += [f'       CALL {self.taker}', f'       BYTE {self.rng.randrange(256)}']

    def move(self):
        self.lines.append(f'       MOVE 8,V@>{self.rng.randrange(0x800, 0x1000):04X},G@D{self.name}')
        self.data.append(f'D{self.name}  BYTE ' + ','.join(str(self.rng.randrange(256)) for _ in range(8)))

    def test(self):
        self.lines += [f'       CEQ  {self.cell()},{self.rng.randrange(256)}', f'       BS   E{self.name}',
                       f'       DST  V@>{self.rng.randrange(0x1000, 0x2000):04X},>{self.rng.randrange(0x1000):04X}',
                       f'E{self.name}  CZ   @>8300']


def program(seed, count, groms):
    """A source of `count` subroutines in `groms` GROMs from >6000 on, each of which has zeros at its end."""
    rng = random.Random(seed)
    lines = ['       GROM >6000', '       BYTE >AA,1,1,0', '       DATA 0,MENU,0,0', 'MENU   DATA 0,START',
             '       BYTE 9', "       TEXT 'GENERATED'", 'START  DCLR @>8300', '       ALL  >20',
             *(f'       CALL F{i:03}' for i in range(count)), '       EXIT']
    for grom in range(groms):
        if grom:
            lines += [f'       GROM >{0x6000 + 0x2000 * grom:04X}', '       AORG 0']
        for number in range(count * grom // groms, count * (grom + 1) // groms):
            part = Part(rng, number, count, f'TAKE{grom}')
            lines += part.lines + part.data
        lines += [f'TAKE{grom}  FETCH @>8308', '       ADD  @>8309,@>8308', '       RTN']
    return '\n'.join([*lines, '       END  START', '']).encode()
