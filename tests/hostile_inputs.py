"""The runs that tests/hostile makes: words, inputs and streams, each by a number and its own random numbers."""
import dataclasses
import os
import pathlib
import random
import shlex

LARGEST = 1_048_576
MOST = {'exec': 10_000_000, 'run': 100_000, 'trace': 100_000, 'watch': 100_000, 'demo': 500}
# the commands of ti_debug that read what a command of ti_bench reads
DEBUGGED = {b'asm': [b'list'], b'gasm': [b'glist'], b'exec': [b'steps'], b'run': [b'grun'],
            b'trace': [b'gsteps', b'gcounts']}
READERS = ['asm', 'dis', 'exec', 'gasm', 'gdis', 'link', 'run', 'trace', 'watch']


@dataclasses.dataclass
class Run:
    """The words, the input and the streams of a run. `spare` is its address space in KiB beyond the least in which the
    program answers, or None for the bound. `files` says that it reads files by name, and `program` is the one that is
    run."""
    words: list
    data: bytes = b''
    stdin: str = 'file'     # or: pipe, closed, folder
    stdout: str = 'file'    # or: closed, full, unread (a pipe without a reader), narrow (a pipe of 4,096 bytes)
    stderr: str = 'file'    # or: closed, full
    spare: int = None
    files: bool = False
    program: str = 'ti_bench'

    def shown(self):
        words = ' '.join(shlex.quote(os.fsdecode(word)[:60]) for word in self.words[:6]) or 'no words'
        words = words if self.program == 'ti_bench' else f'{self.program} {words}'
        kinds = [f'{name} {kind}' for name in ('stdin', 'stdout', 'stderr') if (kind := getattr(self, name)) != 'file']
        spare = [] if self.spare is None else [f'{self.spare} KiB of memory to spare']
        return ', '.join([words, f'{len(self.data)} bytes', *kinds, *spare])


def load_examples():
    """The words and the input of each example of ti_bench that has an input."""
    folder = pathlib.Path(__file__).resolve().parent.parent / 'examples'
    found = [(words.read_bytes().split(), words.with_name('input'))
             for words in sorted(folder.glob('*/words'))]
    return [(words, data) for words, path in found if words[0] not in sum(DEBUGGED.values(), []) and path.exists()
            and (data := path.read_bytes())]


def load_files():
    """The files that examples name, with their bytes."""
    folder = pathlib.Path(__file__).resolve().parent.parent / 'examples'
    return {path.name: path.read_bytes() for words in sorted(folder.glob('*/words'))
            for path in sorted(words.parent.iterdir())
            if path.is_file() and path.name not in ('words', 'then', 'input', 'expected', 'README.md')}


EXAMPLES = load_examples()
ITEMS = [b'pad:8300+1', b'pad:8300+194', b'pad:83c1+1', b'pad:8372+2', b'vdp:0000+768', b'vdp:0000+16384',
         b'vdp:3FFF+1', b'pc:6000', b'pc:ffff', b'pc:0000']
ALPHABETS = [bytes(range(256)), bytes(range(256)), bytes(range(32, 127)) + b'\n', b' @>*,()\'+-/$VGRB09AF\n\t',
             b'0123456789ABCDEF:\n ', b'\x01:0123456789ABCF ']


def words_of(command, rng):
    """Words of a command that reads; runs are short."""
    if command in ('dis', 'gdis'):
        return [command.encode(), b'%04X' % rng.choice((0, 0xA000, 0x6010, 0xFFFE, rng.randrange(0, 0x10000, 2)))]
    if command == 'exec':
        return [b'exec', b'%d' % rng.choice((0, 1, 2, 100, 20_000))]
    if command in MOST:
        items = rng.choices(ITEMS, k=rng.choice((1, 1, 2, 8))) if command == 'watch' else []
        return [command.encode(), b'%d' % rng.choice((0, 1, 2, 10, 40)), *items]
    return [command.encode()]


def reading(rng, data, commands=READERS):
    """A run of some command on an input, which sometimes comes by a pipe."""
    if isinstance(data, str):
        data = data.encode()
    stdin = 'pipe' if len(data) <= 60_000 and rng.random() < 0.1 else 'file'
    return Run(words_of(rng.choice(commands), rng), data, stdin)


def noise(rng, turn):
    """Noise of each size from 0 to 4,096, under each command that reads."""
    size = turn // len(READERS) % 4097
    return Run(words_of(READERS[turn % len(READERS)], rng), bytes(rng.choices(rng.choice(ALPHABETS), k=size)))


def prefixes(rng, turn):
    """Each front of each example, under its own command or another."""
    place = turn % sum(len(data) for _, data in EXAMPLES)
    for words, data in EXAMPLES:
        if place < len(data):
            break
        place -= len(data)
    return Run(words, data[:place]) if rng.random() < 0.7 else reading(rng, data[:place])


# ---- Examples with changes

PIECES = [b'\0', b'\xff', b'\n', b'\r\n', b'\r', b'\x01', b'\t', b"'", b"''", b'(', b')', b'@', b'*', b'>', b'>FFFF',
          b'>10000', b'65535', b'65536', b'-', b'-32768', b'+', b'/0', b',', b',,', b'$', b'R15', b'R16', b'ABCDEFG',
          b' END\n', b' AORG >FFFE\n', b' GROM >E000\n', b'F\n', b':\n', b'7FFFF', b'80000', b'A0000', b'30000',
          b' MOVE ', b' ', b'    ', b'0', b'V@>3FFF', b'>1FFF', b'>2000', b'>8300', b'>83C1', b'>83C2']


def flipped(rng, data, at, end):
    return data[:at] + bytes([data[at] ^ 1 << rng.randrange(8)]) + data[at + 1:] if at < len(data) else data


def replaced(rng, data, at, end):
    return data[:at] + rng.choice(PIECES) + data[end:]


def inserted(rng, data, at, end):
    return data[:at] + rng.choice(PIECES) + data[at:]


def dropped(rng, data, at, end):
    return data[:at] + data[end:]


def repeated(rng, data, at, end):
    return data[:end] + data[at:end] * rng.choice((1, 2, 30)) + data[end:]


def shuffled(rng, data, at, end):
    lines = data.split(b'\n')
    rng.shuffle(lines)
    return b'\n'.join(lines)


def spliced(rng, data, at, end):
    other = rng.choice(EXAMPLES)[1]
    return data[:at] + other[rng.randint(0, len(other)):]


def cut(rng, data, at, end):
    return data[:at]


def spoiled(rng, data, at, end):
    return data[:at] + bytes(rng.choices(ALPHABETS[0], k=rng.randint(1, 8))) + data[end:]


CHANGES = [flipped, replaced, inserted, dropped, repeated, shuffled, spliced, cut, spoiled]


def changed(rng, data):
    """An input with some of its bytes changed, dropped, repeated, moved or added."""
    for _ in range(rng.choice((1, 1, 2, 3, 5, 8, 20))):
        at = rng.randint(0, len(data))
        data = rng.choice(CHANGES)(rng, data, at, min(len(data), at + rng.choice((1, 1, 2, 4, 20, 200))))
    return data[:LARGEST]


def mutations(rng, turn):
    """An example with changes, mostly under its own command."""
    words, data = EXAMPLES[turn % len(EXAMPLES)]
    data = changed(rng, data)
    return Run(words, data) if rng.random() < 0.8 else reading(rng, data)


# ---- Sources, code and object text at random

ASM = ['RTWP IDLE NOP RT EVEN PAGE LIST RORG END'.split(),
       'ABS B BL BLWP CLR DEC INC INV NEG SETO SWPB X JMP JEQ JNE JOC SBO TB STWP STST LWPI LIMI DATA BYTE TEXT BSS '
       'BES AORG DORG RORG EQU DEF REF IDT TITL END'.split(),
       'A AB C CB MOV MOVB S SB SOC SZCB COC CZC XOR MPY DIV XOP LDCR STCR SRA SRL SLA SRC LI AI ANDI ORI CI DATA '
       'BYTE'.split(),
       'DATA BYTE DEF REF'.split()]
GPL = ['RTN RTNC H GT EXIT CARRY OVF END'.split(),
       'RAND BACK ALL B CALL BR BS ABS NEG INV CLR CASE CZ INC DEC INCT DECT FETCH PUSH DCZ DCASE DABS DINC GROM AORG '
       'EQU DATA BYTE TEXT BSS END'.split(),
       'ADD SUB MUL DIV AND OR XOR ST EX CH CHE CGT CGE CEQ CLOG SRA SLL SRL SRC DST DADD DMUL DDIV DEX DSRC '
       'DATA'.split(),
       'MOVE MOVE MOVE DATA BYTE'.split()]
TERMS = ['0', '1', '2', '5', '8', '16384', '65535', '65536', '>8300', '>837C', '>837D', '>8372', '>83C1', '>FF',
         '>6000', '>A000', '>1FFF', "'A'", "'AB'", "''", '$', 'L1', 'S', 'R0', 'R1', 'R15', 'UNDEF', '-1', '-128', '>']
FORMS = ['{}', '{}', '@{}', '@{}', '*{}', '*{}+', '@{}({})', 'V@{}', 'V*{}', '@{}(@{})', 'V@{}(@{})', 'G@{}',
         'G@{}(@{})', 'R@{}', "'{}'", '{}+{}', '{}-{}', '{}*{}', '{}/{}', '-{}', '({})', '@{}+{}', '']


def random_line(rng, operations):
    count = rng.randrange(4)
    operation = rng.choice(operations[count if rng.random() < 0.9 else rng.randrange(4)])
    operands = [rng.choice(FORMS).format(rng.choice(TERMS), rng.choice(TERMS)) for _ in range(count)]
    return f'{rng.choice(("", "", "", "", f"L{rng.randint(2, 99)}"))} {operation} {",".join(operands)}'


def sources(rng, turn):
    """A source of lines that are mostly in form, after two lines that are accepted."""
    command, operations = rng.choice((('asm', ASM), ('gasm', GPL), ('run', GPL), ('trace', GPL), ('watch', GPL)))
    front = ['S ST @>8300,5', 'L1 DEC @>8300'] if operations is GPL else ['S LI R1,5', 'L1 DEC R1']
    lines = [random_line(rng, operations) for _ in range(rng.choice((1, 1, 1, 2, 3, 40)))]
    return Run(words_of(command, rng), '\n'.join([*front, *lines, ' END S\n']).encode())


def codes(rng, turn):
    """A GPL program of random code bytes; some stand after a store that leaves a stack without room."""
    kept = [*range(0x30, 0x36), 0x38, 0x39, *range(0x40, 0x98), *range(0xA0, 0xEC), 0, 1, 2, 4, 5, 6, 7, 6, 6]
    values = [rng.choice(kept) if rng.random() < 0.4 else rng.randrange(256) for _ in range(rng.randint(1, 120))]
    values = rng.choice(([], [], [0xBE, 0x73, 0xC0], [0xBE, 0x72, 0xC1])) + values
    rows = [' BYTE ' + ','.join(map(str, values[at:at + 16])) for at in range(0, len(values), 16)]
    origin = rng.choice((0, 0, 0, 0x2000 - len(values)))
    return reading(rng, '\n'.join([f' AORG {origin}', *rows, f' END >6000+{origin}\n']), ('run', 'trace', 'watch'))


def object_group(rng):
    number = b'%04X' % rng.choice((0, 2, 4, 8, 0xA000, 0xFFFE, 0x8300, rng.randrange(65536)))
    tag = rng.choice(b'123456789ABBBBBBCCCF:0')
    name = {0x30: b'MODULE  ', 0x33: b'FOO   ', 0x34: b'FOO   ', 0x35: b'FOO   ', 0x36: b'BAR   '}.get(tag, b'')
    return bytes([tag]) + (b'\n' if tag in b'F:' else number + name)


def objects(rng, turn):
    """Random words in a module that is in form; or modules of random groups, plain or compressed."""
    if rng.random() < 0.5:
        words = [b'B%04X' % rng.randrange(65536) for _ in range(rng.randint(1, 200))]
        rows = b'F\n'.join([b''.join(words[at:at + 12]) for at in range(0, len(words), 12)])
        return reading(rng, b'00400        A0000' + rows + b'F\n20000F\n:\n', ('exec', 'exec', 'link'))
    if rng.random() < 0.3:
        front = b'\x01\x00\x08        A\0\0'
        data = front + bytes(rng.choices(b'\0\x01\x02 \xa0AB:F357', k=rng.randint(0, 400)))
        return reading(rng, data, ('exec', 'link'))
    modules = [b'00100        ' + b''.join([object_group(rng) for _ in range(rng.randint(0, 12))]) + b'20000F\n:\n'
               for _ in range(rng.choice((1, 1, 2, 3, 70)))]
    return reading(rng, b''.join(modules), ('exec', 'link'))


# ---- Long lines and many names

FRONTS = [(b'', b'A'), (b' ', b' '), (b'*', b'*'), (b" TEXT '", b'A'), (b" TEXT '", b"'"), (b' BYTE 1', b',1'),
          (b' DATA 1', b'+1'), (b' DATA -', b'-'), (b' DATA ', b'9'), (b' DATA (', b'('), (b' DATA >', b'F'),
          (b' ST @>8300', b'(@>8300)'), (b' REF A', b',B'), (b'0', b'0'), (b'B', b'0001B'), (b'\x01', b'B')]
NAMES = ['X{0:05x}\n', 'N{0:05d} EQU {0}\n', ' REF N{0:05d}\n', ' DEF N{0:05d}\n', 'A{0:05d} DATA A{0:05d}\n',
         ' DATA Z{0:05d}\n', 'SAME\n', 'Q{0:06d}\n', ' REF E{0}\n DATA E{0},E{0}\n', 'A{0:05d} DATA A{1:05d}\n']


def long_lines(rng, turn):
    """Lines around 256 bytes, and very long ones, of labels, blanks, quotes, operands and expressions."""
    length = rng.choice((254, 255, 256, 257, 258, 512, 4096, 65_535, 65_536, 300_000))
    front, filler = rng.choice(FRONTS)
    line = (front + filler * (length // len(filler) + 1))[:length]
    ending = rng.choice((b'', b'\n', b'\r\n', b'\r', b'\n END\n'))
    return reading(rng, (line + ending) * rng.choice((1, 1, 2)))


def many_names(rng, turn):
    """Very many names: labels, EQU, REF, DEF and uses of them, and the same name over and over."""
    count = rng.choice((1, 2, 255, 256, 257, 300, 1000, 3000)) if rng.random() < 0.98 else 149_000
    pattern = rng.choice(NAMES)
    data = ''.join([pattern.format(i, (i + 1) % count) for i in range(count)])[:LARGEST]
    return reading(rng, data, ('asm', 'gasm', 'asm', 'gasm', 'run', 'link'))


# ---- Around the limits

def input_limit(rng):
    filler = rng.choice((b' ', b'\n', b'*\n', b'A', b'A\n', b'\0', b'\x01', b'00000        F\n:\n', b' BYTE 1\n',
                         bytes(rng.choices(ALPHABETS[0], k=997))))
    size = LARGEST + rng.choice((-1, 0, 1, 2))
    return reading(rng, (filler * (size // len(filler) + 1))[:size])


def memory_end(rng):
    at = rng.choice((0, 2, 0x6000, 0xDFFE, 0xFFFE, rng.randrange(0, 65536, 2)))
    size = max(0, 65_536 - at + rng.choice((-2, -1, 0, 1, 2)))
    data = bytes(rng.choices(ALPHABETS[0], k=997)) * (size // 997 + 1)
    return Run([rng.choice((b'dis', b'gdis')), b'%04x' % at], data[:size])


def module_limit(rng):
    body = rng.choice(('', '20000', '50000A     ', 'B1234', '40000A     ', 'A0000B0001'))
    return reading(rng, f'00002        {body}F\n:\n' * rng.choice((63, 64, 65, 66)), ('link', 'exec'))


def name_limit(rng):
    name = 'ABCDEFGH'[:rng.choice((5, 6, 7, 8))]
    if rng.random() < 0.3:
        return reading(rng, f'00000{name:8}50000{name:<6}F\n:\n', ('link', 'exec'))
    lines = [f'{name} DATA 1', f' DATA {name}', f' DEF {name}', f' REF {name}', f" IDT '{name}X'",
             f'{name} EQU {name}', f' B @{name}']
    return reading(rng, '\n'.join(rng.sample(lines, rng.randint(1, 4))) + '\n', ('asm', 'gasm'))


def counts_limit(rng):
    count = rng.choice((255, 256, 257))
    if rng.random() < 0.5:
        operation = rng.choice(('REF N{0:04d}', 'DEF N{0:04d}\nN{0:04d}'))
        return Run([b'asm'], ''.join([f' {operation.format(i)}\n' for i in range(count)]).encode())
    tags = rng.choice(('3', '4', '5', '6', '45', '56'))
    rows = ''.join([f'{tags[i % len(tags)]}0000D{i:05d}F\n' for i in range(count * len(tags))])
    return reading(rng, f'00000        F\n{rows}:\n', ('link', 'exec'))


def words_limit(rng):
    count = rng.choice((32_767, 32_768, 32_769))
    if rng.random() < 0.4:
        return reading(rng, '00000        F\n' + 'B0000F\n' * count + ':\n', ('link', 'exec'))
    text = rng.choice((' DATA 1\n' * count, ' BSS 65534\n BYTE 1\n BYTE 2\n', ' AORG >FFFE\n DATA 1,2\n',
                       f' BSS {2 * count}\n RT\n'))
    return reading(rng, text, ('asm', 'gasm'))


def numbers_limit(rng):
    number = rng.choice(('65535', '65536', '>FFFF', '>10000', '-128', '-129', '255', '256', '127', '16', '9' * 20))
    line = rng.choice((' DATA {}', ' BYTE {}', ' LI R1,{}', ' LI {},1', ' JMP $+{}', ' SRA R1,{}', ' XOP R1,{}',
                       ' MOVE {},@>8300,@>8301', ' MOVE 1,R@{},G@>6000', ' GROM {}', ' AORG {}', ' BR {}', ' ALL {}',
                       ' RAND {}', ' BSS {}', ' END {}'))
    return reading(rng, f'S{line.format(number)}\n END S\n', ('asm', 'gasm', 'run', 'trace'))


def steps_limit(rng):
    if rng.random() < 0.4:
        limit = rng.choice((0, 9_999_999, 10_000_000, 10_000_001))
        return Run([b'exec', b'%d' % limit], b'00002        A0000B10FF20000F\n:\n')
    data = rng.choice((b'S EXIT\n END S\n', b'S BYTE >0F\n END S\n', b'S ALL 1\n EXIT\n END S\n'))
    if rng.random() < 0.3:
        limit = 10_000_000 + rng.choice((-1, 0, 1))
        return Run([rng.choice((b'grun', b'gsteps', b'gcounts')), b'%d' % limit], data, program='ti_debug')
    command = rng.choice(('run', 'trace', 'watch', 'demo'))
    items = [rng.choice(ITEMS)] if command == 'watch' else []
    return Run([command.encode(), b'%d' % (MOST[command] + rng.choice((-1, 0, 1))), *items], data)


def move_limit(rng):
    length = rng.choice((0, 1, 16_383, 16_384, 16_385, 65_535))
    places = ['V@0', 'V@>3FFF', '@>8300', '@>83C1', '@>837D', 'V@>2000', '*>8300', 'V*>8300', 'V@>3FFF(@>8300)',
              '@>8300(@>8302)']
    source = rng.choice(places + ['G@>6000', 'G@>FFFF', 'G@>7FFF(@>8300)'])
    target = rng.choice(places + ['R@0', 'R@7', 'R@8'])
    return reading(rng, f'S MOVE {length},{target},{source}\n EXIT\n END S\n', ('run', 'trace', 'watch'))


LIMITS = [input_limit, memory_end, module_limit, name_limit, counts_limit, words_limit, numbers_limit, steps_limit,
          move_limit]


def limits(rng, turn):
    """An input at a limit, or one past it."""
    return LIMITS[turn % len(LIMITS)](rng)


# ---- Files by name

OBJECT = b'00002        A0000B10FF20000F\n:\n'
# The files of the folder in which all runs are made; beside them it has a folder, a link and a pipe.
FILES = {'A.SRC': b' LI R1,>1234\n A R1,R2\n RT\n', 'CRLF.SRC': b' RT\r\n RT\r\n', 'END.SRC': b' DATA 1\n END\n FOO\n',
         'BAD.SRC': b' DATA 1\n FOO\n', 'OPEN.SRC': b' DATA LATER\n', 'RING.SRC': b' COPY "RING.SRC"\n',
         'TWICE.SRC': b' COPY "TWO.SRC"\n COPY \'TWO.SRC\'\n', 'TWO.SRC': b' COPY "EMPTY"\n DATA 1\n', 'EMPTY': b'',
         'MANY63.SRC': b' COPY "EMPTY"\n' * 63, 'MANY64.SRC': b' COPY "EMPTY"\n' * 64, 'FULL.SRC': b'*\n' * 131_072,
         'OVER.SRC': b'*\n' * 131_072 + b'*', 'NAMES.SRC': b''.join([b'N%05x\n' % i for i in range(37_000)]),
         'ONE': OBJECT, 'DEFINES': b'00002        A0000B000750000FOO   F\n:\n',
         'USES': b'00008        A0000B0000C0000BC060C000230006FOO   20000F\n:\n', 'BAD': b'00000        AX000F\n:\n',
         'SHORT': b'00002        B000', 'PACKED': b'\x01\0\2        B\0\7F'.ljust(80) + b':', 'MODULES': OBJECT * 64,
         'MODULES65': OBJECT * 65, 'LARGE': b'\n' * LARGEST, 'LARGER': b'\n' * (LARGEST + 1), '-h': OBJECT,
         'N' * 60: OBJECT, **load_files()}
NAMED = [name.encode() for name in FILES] + [b'FOLDER', b'LINK', b'PIPE', b'NONE']
UNNAMED = [b'', b'.', b'..', b'.HIDDEN', b'../A.SRC', b'/etc/passwd', b'FOLDER/A.SRC', b'N' * 61, b'A B', b'\xc3\xa9',
           b'A\0SRC', b'*']


def copies(rng, turn):
    """A source that copies files: any of the folder's, missing ones, and names that are none."""
    def line():
        quote = rng.choice((b'"', b'"', b"'"))
        name = rng.choice(NAMED) if rng.random() < 0.9 else rng.choice(UNNAMED)
        ending = quote if rng.random() < 0.97 else rng.choice((b'', b'x', b'"', b"'"))
        label = b'' if rng.random() < 0.97 else b'L%d' % rng.randrange(9)
        return label + b' ' + rng.choice((b'COPY', b'COPY', b'copy')) + b' ' + quote + name + ending
    own = [b' DATA 1', b'LATER', b' RT', b'* a remark', b' END', b' FOO']
    lines = [line() if rng.random() < 0.6 else rng.choice(own) for _ in range(rng.choice((1, 1, 2, 3, 8, 70)))]
    command = b'asm' if rng.random() < 0.9 else rng.choice((b'gasm', b'link'))
    return Run([command], b'\n'.join(lines) + b'\n', files=command == b'asm')


def linked_files(rng, turn):
    """`link` with names: of any of the folder's files, of missing ones, and words that are no names."""
    count = rng.choice((1, 1, 2, 2, 3, 5, 15, 16, 17))
    names = [rng.choice(NAMED) if rng.random() < 0.8 else b'DEFINES' for _ in range(count)]
    if rng.random() < 0.1:
        names[rng.randrange(count)] = rng.choice([name for name in UNNAMED if b'\0' not in name])
    stdin = rng.choice(('file', 'file', 'closed', 'folder'))
    return Run([b'link', *names], stdin=stdin, files=True)


# ---- Words, streams and memory

WORDS = [b'asm', b'link', b'dis', b'gdis', b'exec', b'gasm', b'interp', b'run', b'trace', b'demo', b'', b'0', b'1',
         b'watch', b'pad:8300+1', b'pad:83C1+2', b'pad:8300+0', b'pad:8300+01', b'PAD:8300+1', b'vdp:3FFF+2',
         b'vdp:0000+16385', b'vdp:0+1', b'pc:6000', b'pc:60', b'pc:>6000', b'pc:6000+1', b'ONE', b'.ONE', b'ONE/',
         b'5', b'007', b'-1', b'A000', b'a001', b'A00', b'A0000', b'>A000', b'100000', b'100001', b'10000000',
         b'10000001', b'500', b'501', b'--help', b'--version', b'-h', b'--', b'ASM', b'\xff\xfe', b'\xc3\xa9',
         b'9' * 20, b'+1', b'glist', b'list', b'grun', b'gsteps', b'gcounts', b'steps', b' 1', b'1 ', b'0x10', b'?',
         b'asm\n', b'1e3']


def words(rng, turn):
    """Words that are no command, or chance to be one: few, many, long, or no text."""
    chosen = rng.choices(WORDS, k=rng.choice((0, 1, 1, 2, 2, 2, 2, 3, 5)))
    if rng.random() < 0.1:
        chosen.append(bytes(rng.choices(range(1, 256), k=rng.choice((1, 10, 1000, 100_000)))))
    if rng.random() < 0.03:
        chosen = [b'word'] * 5000
    # ten million steps of GPL that do not end take longer than a run may
    is_long = b'10000000' in chosen
    return Run(chosen, rng.choice(EXAMPLES)[1] if rng.random() < 0.5 and not is_long else b'')


def unread(rng):
    return rng.choice(([b'interp'], [b'demo', b'%d' % rng.randint(1, 500)], [b'nonsense']))


def streams(rng, turn):
    """An example, perhaps changed, over streams of which some fail."""
    chosen, data = EXAMPLES[turn % len(EXAMPLES)]
    if rng.random() < 0.3:
        data = changed(rng, data)[:60_000]
    if rng.random() < 0.3:
        chosen = unread(rng)
    stdin = rng.choice(('file', 'file', 'pipe', 'closed', 'folder'))
    stdout = rng.choice(('file', 'closed', 'full', 'unread', 'narrow', 'narrow'))
    return Run(chosen, data, stdin, stdout, rng.choice(('file', 'file', 'closed', 'full')))


def little_memory(rng, turn):
    """An example in little more address space than a program needs that answers bad words."""
    chosen, data = rng.choice(EXAMPLES)
    return Run(unread(rng) if rng.random() < 0.3 else chosen, data, spare=rng.randrange(0, 1500))


WEIGHTS = {noise: 8, prefixes: 1, mutations: 4, sources: 2, codes: 2, objects: 1, long_lines: 1, many_names: 1,
           limits: 1, words: 1, streams: 1, little_memory: 1, copies: 1, linked_files: 1}
KINDS = [(kind, part, weight) for kind, weight in WEIGHTS.items() for part in range(weight)]


def debugged(run, turn, is_any):
    """The run with a command of ti_debug that reads the same, by turns; with any words, if it is for them."""
    names = DEBUGGED.get(run.words[0] if run.words else b'')
    if names:
        return dataclasses.replace(run, words=[names[turn % len(names)], *run.words[1:]], program='ti_debug')
    return dataclasses.replace(run, program='ti_debug') if is_any else run


def run_of(seed, number):
    """The kind of a run and the run, by the seed and its number. Of four rounds of all kinds one is for ti_debug."""
    kind, part, weight = KINDS[number % len(KINDS)]
    turn = number // len(KINDS)
    run = kind(random.Random(f'{seed} {number}'), turn * weight + part)
    return kind.__name__, debugged(run, turn // 4, kind is words) if turn % 4 == 3 else run
