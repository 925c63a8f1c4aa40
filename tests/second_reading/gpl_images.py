"""Random bytes for the disassembler: instructions in their shortest spelling and in longer ones, other codes, and
instructions that are cut at the end or at a GROM's end."""
from gpl_assembler import operand_bytes
from gpl_table import codes

CODES = codes()
CODE_BYTES = sorted(CODES)
ADDRESSES = (0, 1, 0x1FFF, 0x6000, 0x6010, 0x7FF0, 0x7FFE, 0x7FFF, 0x9FF8, 0xDFFF, 0xE000, 0xFFF0, 0xFFFF)
OFFSETS = (0, 1, 0x7F, 0x80, 0xC1, 0xEFF, 0xF00, 0xF01, 0x7CFF, 0x7D00, 0x7FFF, 0x8000, 0xFFFF)


def operand(generator):
    """An operand's bytes: shortest mostly; else two for what fits in one, or three for what fits in two."""
    vdp, indirect = generator.random() < 0.3, generator.random() < 0.3
    address = generator.choice(OFFSETS) if generator.random() < 0.4 else generator.randrange(0xC2)
    index = generator.randrange(256) if generator.random() < 0.2 else None
    if generator.random() < 0.85:
        return operand_bytes(vdp, indirect, address, index)
    first = 0x80 | (index is not None) << 6 | vdp << 5 | indirect << 4
    end = b'' if index is None else bytes([index])
    if generator.random() < 0.5 and address < 0xF00:
        return bytes([first | address >> 8, address & 0xFF]) + end
    return bytes([first | 0x0F, address >> 8, address & 0xFF]) + end


def instruction(generator):
    """A code byte that is kept, and what follows it."""
    code = generator.choice(CODE_BYTES)
    name, form = CODES[code]
    if name == 'MOVE':
        length = generator.randbytes(2) if code & 1 else operand(generator)
        target = generator.randbytes(1) if form == 'register' else operand(generator)
        source = operand(generator) if form == 'memory' else generator.randbytes(3 if form == 'indexed' else 2)
        return bytes([code]) + length + target + source
    more = {'plain': 0, 'value': 1, 'branch': 1, 'address': 2}.get(form)
    if more is not None:
        return bytes([code]) + generator.randbytes(more)
    found = bytes([code]) + operand(generator)
    if form == 'two':
        return found + operand(generator)
    return found + generator.randbytes(1 + (code & 1)) if form == 'immediate' else found


def image(generator):
    """Bytes, of a whole GROM and more in a few."""
    pieces = []
    for _ in range(generator.choice((0, 1, 1, 2, 5, 10, 30, 100)) if generator.random() < 0.98 else 2500):
        choice = generator.random()
        pieces.append(instruction(generator) if choice < 0.85 else generator.randbytes(generator.randrange(1, 6)))
    data = b''.join(pieces)
    return data[generator.choice((0, 0, 0, 1)):len(data) - generator.choice((0, 0, 0, 1, 2))]


def address(generator, count):
    """An address: any, one at the border of a GROM, or one with which so many bytes end at a border or pass it."""
    choice = generator.random()
    if choice < 0.3:
        return generator.randrange(0x10000)
    if choice < 0.6:
        return generator.choice(ADDRESSES)
    border = 0x2000 * generator.choice((1, 3, 4, 7, 8, 8, 8))
    near = generator.choice((count, count - 1, count + 1, generator.randrange(count + 1)))
    return max(0, border - near) & 0xFFFF
