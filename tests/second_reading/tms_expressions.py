"""Random names, numbers and expressions of assembler sources, after the forms of the Editor/Assembler manual."""
import tms_assembler
import tms_operands
import tms_text

BORDERS = (0, 1, 2, 3, 4, 7, 8, 9, 14, 15, 16, 17, 126, 127, 128, 129, 254, 255, 256, 257, 0x7FFE, 0x7FFF, 0x8000,
           0x8001, 0x8300, 0xA000, 0xFF7F, 0xFF80, 0xFFFD, 0xFFFE, 0xFFFF)
LETTERS = 'ABCDEFGHIJKLMNOPQRSTUVWXYZ'
NAME_CHARACTERS = LETTERS + '0123456789'
REGISTERS = {f'R{number}' for number in range(16)}
# names that look like something else
ODD_NAMES = ('R16', 'R00', 'R99', 'RT', 'MOV', 'END', 'DATA', 'A', 'B', 'X', 'EQU', 'TEXT', 'ABCDEF', 'Z9Z9Z9', 'R1A')
QUOTABLE = 'AZaz09 ,()*+@$>;.\t' + '\x7f\x00\xe9'


def number(generator):
    """A word: often one at a border."""
    if generator.random() < 0.5:
        return generator.choice(BORDERS)
    return generator.randrange(0x10000)


def written(generator, word):
    """A word as one number: decimal or hexadecimal, of either case, with zeros before it or without."""
    choice = generator.randrange(8)
    if choice < 3:
        return f'{word}'
    if choice == 3:
        return f'{word:06d}'
    if choice == 4:
        return f'>{word:04x}'
    return f'>{word:X}' if choice < 7 else f'>{word:04X}'


def characters(generator, most):
    """A quoted text of up to so many characters."""
    text = ''.join(generator.choice(QUOTABLE + "'") for _ in range(generator.randint(0, most)))
    return "'" + text.replace("'", "''") + "'"


def exact(generator, word):
    """An absolute expression that has this value, without names of the source."""
    choice = generator.randrange(12)
    if choice < 6:
        return written(generator, word)
    other = number(generator)
    if choice == 6 and word < 16:
        return generator.choice((f'R{word}', f'r{word}', f'0+R{word}'))
    if choice == 7:
        return f'-{written(generator, -word & 0xFFFF)}'
    if choice == 8:
        return f'{written(generator, other)}+{written(generator, (word - other) & 0xFFFF)}'
    if choice == 9:
        factor = generator.choice((1, 2, 3, 255, 0x8000, 0xFFFF))
        rest = (word - other * factor) & 0xFFFF
        return f'{written(generator, other)}*{written(generator, factor)}+{written(generator, rest)}'
    if choice == 10:
        divisor = generator.choice((1, 2, 3, 7, 0x7FFF, 0x8000, 0xFFFF))
        quotient = tms_text.toward_zero(other, divisor)
        return f'{written(generator, other)}/{written(generator, divisor)}+{(word - quotient) & 0xFFFF}'
    if 32 <= word < 127 and word != 39:
        return f"'{chr(word)}'"
    return f'{written(generator, other)}-{written(generator, (other - word) & 0xFFFF)}'


def new_name(generator, there):
    """A name that is not there yet."""
    while True:
        if generator.random() < 0.15:
            name = generator.choice(ODD_NAMES)
        else:
            rest = generator.choice((0, 1, 2, 3, 5, 5))
            name = generator.choice(LETTERS) + ''.join(generator.choice(NAME_CHARACTERS) for _ in range(rest))
        if name not in there and name not in REGISTERS:
            return name


def cased(generator, text):
    """A text in upper, in lower or in mixed case."""
    choice = generator.randrange(10)
    if choice == 0:
        return text.lower()
    return text.title() if choice == 1 else text


OPERATIONS = sorted({**tms_operands.INSTRUCTIONS, **tms_assembler.COUNTS})
