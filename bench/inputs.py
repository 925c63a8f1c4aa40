"""What bench/run and bench/peers measure: the commands, each with an input that is made at a size, in the syntax of each
assembler."""
import random


def text(lines):
    """Lines as bytes."""
    return '\n'.join([*lines, '']).encode()


def each(count, lines):
    """The lines that a function gives for each number below a count."""
    return text(line for number in range(count) for line in lines(number))


# ---- Sources of the assembler

def ordinary(count):
    return each(count // 6, lambda i: (f'L{i:05} MOV R1,R2', '* a remark on it', '       DEC R5    count',
                                       f'N{i:05} EQU {i}', f'       JNE L{i:05}', '* more remarks'))


def dense(count):
    return each(count // 4, lambda i: [' DORG 0'] * (i % 2500 == 0) + [
        f'L{i:05} LI R1,>1234', '       MOV R2,R3', '       DEC R5    count', f'       JNE L{i:05}'])


def dense_for_64tass(count):
    return each(count // 4, lambda i: [' *= 0'] * (i % 2500 == 0) + [
        f'L{i:05} lda #$12', '       tax', '       dec $05   ;count', f'       bne L{i:05}'])


def dense_for_as(count):
    return each(count // 4, lambda i: (f'L{i:05}: mov $0x1234,%ax', '       mov %bx,%cx', '       dec %dx # count',
                                       f'       jne L{i:05}'))


def empty(count):
    return b'\n' * count


def forward(count):
    return each(count, lambda i: (f'A{i:05}', f'B{i:05} DATA A{(i + 1) % count:05}'))


def forward_for_64tass(count):
    return b' *= 0\n' + each(count, lambda i: (f'A{i:05}', f'B{i:05} .word A{(i + 1) % count:05}'))


def forward_for_as(count):
    return each(count, lambda i: (f'A{i:05}:', f'B{i:05}: .word A{(i + 1) % count:05}'))


def names(count):
    return each(count, lambda i: [f'X{i:05x}'])


def names_for_as(count):
    return each(count, lambda i: [f'X{i:05x}:'])


def expressions(count):
    return each(count, lambda i: [' DATA 1' + '+1' * 124])


def comments(count):
    return each(count, lambda i: [f'* remark on line{i % 10}'])


def falling_words(count):
    return each(count, lambda i: (f' AORG {65534 - 2 * i}', f' DATA {i}'))


def chains_of_uses(count):
    return text(f' REF E{i}' for i in range(256)) + each(count, lambda i: [f' DATA E{i % 256}'])


# ---- GPL sources

def gpl_ordinary(count):
    return each(count // 6, lambda i: [f' GROM {8192 * (i // 1600)}'] * (i % 1600 == 0) + [
        f'L{i:05} ST @>8300,5', '* a remark on it', '       DEC @>8302   count', f'N{i:05} EQU {i}', '* more remarks',
        '* and still more of them'])


def gpl_forward(count):
    return each(count, lambda i: [f' GROM {8192 * (i // 4000)}'] * (i % 4000 == 0) + [
        f'A{i:05}', f'B{i:05} DATA A{(i + 1) % count:05}'])


def gpl_bytes(count):
    return each(count, lambda i: [f' GROM {i}'] * (i % 8192 == 0) + [f' BYTE {i % 256}'])


# ---- Object text and images

def noise(low, high):
    """A maker of bytes from one to below another."""
    return lambda count: bytes(random.Random(1).randrange(low, high) for _ in range(count))


def modules(count):
    """64 modules with a chain, a DEF and a REF for each of their words."""
    lines = []
    for module in range(64):
        lines.append('00080        A0000F')
        lines += [f'B{i:04X}F' for i in range(count // 4)]
        lines += [f'5{2 * i:04X}D{module:02}{i:03}F' for i in range(count)]
        lines += [f'40000D{(module + 1) % 64:02}{i:03}F' for i in range(count)]
        lines += ['20000F' if module == 0 else 'F', ':']
    return text(lines)


def long_chain(count):
    """A module with one chain of uses, and one that defines the name."""
    return text(['06000        A0000B0000F', *(f'C{2 * i - 2:04X}F' for i in range(1, count)),
                 f'3{2 * count - 2:04X}FOO   F', '20000F', ':', '00000        90002B1234F', '50002FOO   F', ':'])


def full_module(module):
    """The source of a module of 128 names, of which each uses the name of the module before."""
    before = [f'N{module - 1:02x}{i:03}' if module else '0' for i in range(128)]
    own = [f'N{module:02x}{i:03}' for i in range(128)]
    return text([*(f' DEF {name}' for name in own), *(f' REF {name}' for name in before if module),
                 *(f'{name} DATA {used}' for name, used in zip(own, before))])


def loop(words):
    """Object text of these words, entered at the first."""
    return f'00100        A0000{"".join("B" + word for word in words)}20000F\n:\n'.encode()


# a row's name, its words, the largest size, and what makes its input
SIZED = [
    ('asm ordinary source', ['asm'], 57600, ordinary),
    ('asm dense source', ['asm'], 52000, dense),
    ('asm empty lines', ['asm'], 1048576, empty),
    ('gasm empty lines', ['gasm'], 1048576, empty),
    ('asm forward uses', ['asm'], 28500, forward),
    ('asm names alone', ['asm'], 149000, names),
    ('asm long expressions', ['asm'], 4090, expressions),
    ('asm comments', ['asm'], 58000, comments),
    ('asm words from high to low', ['asm'], 32000, falling_words),
    ('asm 256 chains of uses', ['asm'], 32000, chains_of_uses),
    ('gasm ordinary source', ['gasm'], 52800, gpl_ordinary),
    ('gasm forward uses', ['gasm'], 24000, gpl_forward),
    ('gasm names alone', ['gasm'], 149000, names),
    ('gasm long expressions', ['gasm'], 4090, expressions),
    ('gasm comments', ['gasm'], 58000, comments),
    ('gasm bytes one by one', ['gasm'], 65536, gpl_bytes),
    ('dis of many words', ['dis', '0000'], 65536, noise(32, 126)),
    ('gdis of many bytes', ['gdis', '0000'], 65536, noise(1, 128)),
    ('link of 64 modules', ['link'], 256, modules),
    ('link of one long chain', ['link'], 12280, long_chain),
]
# the same of runs, by the number of their steps
STEPPED = [
    ('run ST, ST, B', ['run', '{}'], b'S ST @>8300,5\n ST @>8301,6\n B S\n END S\n'),
    ('run DST, ST, B', ['run', '{}'], b'S DST V@>0100,@>8302\n ST @>8340,V*>8302\n B S\n END S\n'),
    ('watch ST, ST, B', ['watch', '{}', 'vdp:0000+16384'], b'S ST @>8300,5\n ST @>8301,6\n B S\n END S\n'),
]
# the words of two loops of `exec`; bench/loops has the others
EXECUTED = [('exec A, JMP', ['A042', '10FE']),
            ('exec LI, MOV, A, MOV, JMP', ['0201', '1234', 'C081', 'A042', 'C0C2', '10FA'])]
