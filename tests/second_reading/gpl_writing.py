"""Random GPL statements: names, expressions, operands and lines, at the borders of what is allowed and beyond."""
from gpl_table import BYTE_VALUE, NO_IMMEDIATE, PLAIN, operations
from gpl_text import REGISTERS

LETTERS = 'ABCDEFGHIJKLMNOPQRSTUVWXYZ'
OPERATIONS = operations()
BY_FORM = {form: sorted(name for name, (its, _, _) in OPERATIONS.items() if its == form)
           for form in ('one', 'two', 'address', 'branch')}
# the borders of numbers, of the visible cells and the spellings of their offsets, and of VDP memory
WORDS = (0, 1, 2, 7, 8, 15, 16, 0x7F, 0x80, 0xFF, 0x100, 0xFE, 0x7FFF, 0x8000, 0x8001, 0xFF7F, 0xFF80, 0xFFFE, 0xFFFF)
CELLS = (0x8300, 0x8301, 0x8372, 0x8373, 0x8378, 0x837C, 0x837D, 0x837E, 0x837F, 0x8380, 0x83C0, 0x83C1, 0x83C2,
         0x83FF, 0x8400, 0x91FF, 0x9200, 0x82FF, 0, 0xFFFF)
PLACES = (0, 1, 0x2FF, 0x300, 0xEFF, 0xF00, 0x3FFE, 0x3FFF, 0x4000, 0x7FFF, 0x8000, 0xFFFF)
COMMENTS = ('', '', '', ' comment', '  * 5', "\tit's", ' a,b @#!')
BLANKS = (' ', ' ', ' ', '  ', '\t', '       ')


def name(generator):
    length = generator.choice((1, 2, 3, 4, 5, 6))
    return generator.choice(LETTERS) + ''.join(generator.choices(LETTERS + '0123456789', k=length - 1))


def spelled(generator, number):
    """A number as decimal or hexadecimal digits, some with zeros before them, or as characters."""
    choice = generator.random()
    if choice < 0.4:
        return '>' + format(number, generator.choice(('X', '04X', '02X', 'x')))
    if choice < 0.8:
        return format(number, generator.choice(('d', 'd', '03d')))
    if choice < 0.85 and number > 0x7FFF:
        return f'-{0x10000 - number}'
    characters = number.to_bytes(2, 'big').decode('latin-1').lstrip('\0')
    if characters and all(' ' < character for character in characters) and choice < 0.95:
        return "'" + characters.replace("'", "''") + "'"
    return str(number)


def expression(generator, number, names):
    """An expression of a value: a number, a name with what is missing to it, or a sum, product or quotient."""
    choice = generator.random()
    if choice < 0.65:
        return spelled(generator, number)
    if choice < 0.9 and names:
        known = generator.choice(list(names.items()))
        missing = number - known[1] & 0xFFFF
        if not missing:
            return known[0]
        if generator.random() < 0.5:
            return f'{known[0]}-{spelled_digits(generator, -missing & 0xFFFF)}'
        return f'{known[0]}+{spelled_digits(generator, missing)}'
    if choice < 0.95:
        by = generator.choice((1, 2, 3, 10, 255))
        return f'{spelled_digits(generator, number // by)}*{by}+{number % by}'
    if choice < 0.98 and number < 0x4000:
        return f'{number * 2}/2'
    return f'-{spelled_digits(generator, -number & 0xFFFF)}'


def spelled_digits(generator, number):
    return f'>{number:X}' if generator.random() < 0.5 else str(number)


def address(generator, vdp):
    if vdp:
        return generator.choice(PLACES) if generator.random() < 0.4 else generator.randrange(0x4000)
    if generator.random() < 0.3:
        return generator.choice(CELLS)
    return 0x8300 + generator.randrange(0xC2)


def memory(generator, names, index=0.2):
    """An operand in memory: of the scratchpad or VDP memory, direct or by a pointer word, with or without index."""
    prefix = generator.choice(('@', '@', '@', 'V@', '*', 'V*'))
    text = prefix + expression(generator, address(generator, prefix == 'V@'), names)
    return text + index_text(generator, names) if generator.random() < index else text


def index_text(generator, names):
    number = 0x8300 + (generator.choice((0, 0x72, 0x7C, 0xC0, 0xC1, 0xFF)) if generator.random() < 0.4
                       else generator.randrange(0x100))
    return f'(@{expression(generator, number, names)})'


def word(generator):
    return generator.choice(WORDS) if generator.random() < 0.5 else generator.randrange(0x10000)


def byte(generator):
    return generator.choice((0, 1, 0x7F, 0x80, 0xFF, 0xFF80, 0xFFFF)) if generator.random() < 0.4 \
        else generator.randrange(0x100)


def move(generator, names):
    """A MOVE of any kind: its length, destination and source."""
    length = expression(generator, word(generator), names) if generator.random() < 0.5 else memory(generator, names)
    grom = 'G@' + expression(generator, word(generator), names)
    choice = generator.random()
    if choice < 0.25:
        return f'MOVE {length},R@{expression(generator, generator.choice((0, 1, 7, 8, 255)), names)},{grom}'
    if choice < 0.5:
        return f'MOVE {length},{memory(generator, names)},{memory(generator, names)}'
    if choice < 0.75:
        return f'MOVE {length},{memory(generator, names)},{grom}'
    return f'MOVE {length},{memory(generator, names)},{grom}{index_text(generator, names)}'


def instruction(generator, names, later, location):
    """An instruction with its operands; targets may be names of later lines."""
    choice = generator.random()
    if choice < 0.12:
        return generator.choice(sorted(PLAIN))
    if choice < 0.2:
        return f'{generator.choice(sorted(BYTE_VALUE))} {expression(generator, byte(generator), names)}'
    if choice < 0.28:
        target = generator.choice(later) if later and generator.random() < 0.5 else \
            expression(generator, word(generator), names)
        return f'{generator.choice(BY_FORM["address"])} {target}'
    if choice < 0.36:
        target = location & 0xE000 | generator.choice((0, 0x1FFF, generator.randrange(0x2000)))
        return f'{generator.choice(BY_FORM["branch"])} {expression(generator, target, names)}'
    if choice < 0.55:
        return f'{generator.choice(BY_FORM["one"])} {memory(generator, names)}'
    if choice < 0.68:
        return move(generator, names)
    operation = generator.choice(BY_FORM['two'])
    if operation in NO_IMMEDIATE or generator.random() < 0.5:
        source = memory(generator, names)
    else:
        source = expression(generator, (word if OPERATIONS[operation][2] else byte)(generator), names)
    return f'{operation} {memory(generator, names)},{source}'


def data(generator, names, later):
    """DATA, BYTE, TEXT or BSS."""
    choice = generator.random()
    count = generator.choice((1, 1, 2, 3, 8))
    if choice < 0.35:
        texts = [generator.choice(later) if later and generator.random() < 0.3
                 else expression(generator, word(generator), names) for _ in range(count)]
        return 'DATA ' + ','.join(texts)
    if choice < 0.7:
        return 'BYTE ' + ','.join(expression(generator, byte(generator), names) for _ in range(count))
    if choice < 0.9:
        characters = ''.join(generator.choices("ABC xyz09,'()@*>\t\x80\xff", k=generator.randrange(0, 12)))
        return "TEXT '" + characters.replace("'", "''") + "'"
    return f'BSS {expression(generator, generator.choice((0, 1, 2, 16, 256)), names)}'


def origin(generator, names):
    """GROM or AORG, to the ends of a GROM too."""
    if generator.random() < 0.4:
        return f'GROM {expression(generator, 0x2000 * generator.randrange(8), names)}'
    border = generator.choice((0, 1, 0x1FF0, 0x1FFD, 0x1FFF))
    offset = border if generator.random() < 0.5 else generator.randrange(0x2000)
    return f'AORG {expression(generator, offset, names)}'


def statement(generator, names, later, location):
    """A line: with label or without, of small letters or capitals, with blanks and a comment."""
    label = ''
    if generator.random() < 0.3:
        label = generator.choice(later) if later and generator.random() < 0.5 else name(generator)
    choice = generator.random()
    if choice < 0.03:
        return generator.choice(('', '   ', '* comment', "*'", '\t \t'))
    if choice < 0.06 and label:
        return label + generator.choice(('', ' ', '\t'))
    defined = dict(list(names.items())[-12:]) if generator.random() < 0.95 else {**REGISTERS, **names}
    if choice < 0.12:
        label = label or name(generator)
        text = f'EQU {expression(generator, word(generator), defined)}'
    elif choice < 0.17:
        text = origin(generator, defined)
    elif choice < 0.35:
        text = data(generator, defined, later)
    else:
        text = instruction(generator, defined, later, location)
    line = label + generator.choice(BLANKS) + text + generator.choice(COMMENTS)
    if generator.random() < 0.1 and "'" not in line:
        return line.lower()
    return line
