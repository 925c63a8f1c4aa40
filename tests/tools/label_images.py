"""Images to label: edges, random bytes, and bytes with structure. Each has a lister, an address, bytes and wishes."""
import collections
import random

from labelling.label import Wishes

Case = collections.namedtuple('Case', 'lister at data wishes')
GPL_CODES = [0x00, 0x01, 0x02, 0x04, 0x05, 0x06, 0x06, 0x07, 0x0B, 0x31, 0x35, 0x39, 0x33, 0x40, 0x45, 0x5F, 0x60, 0x7F,
             0x80, 0x8A, 0x88, 0x88, 0x8E, 0x90, 0x93, 0xA0, 0xA2, 0xBC, 0xBE, 0xBF, 0xC6, 0xD6, 0xE2]
WORDS = [0x0200, 0x0201, 0x0460, 0x06A0, 0x06A0, 0x0420, 0x045B, 0xC07B, 0xC28B, 0xD07B, 0x0380, 0x10FF, 0x1002, 0x1305,
         0x16F0, 0x1D00, 0xC820, 0xC060, 0xD831, 0x04C0, 0x0A53, 0x2C81, 0x3060, 0x02E0, 0x0300, 0x0000]
PIECES = [b'HELLO WORLD ', b"IT'S", b"''''''''", b'AB', bytes(20), b'\x40' * 8, b'\xFF' * 40]


def of_codes(rng, lister, at, length):
    """Codes of instructions, with addresses of the image itself between them."""
    data = bytearray()
    while len(data) < length:
        if lister == 'gdis':
            data.append(rng.choice(GPL_CODES))
            for _ in range(rng.randint(0, 3)):
                is_near = rng.random() < 0.4
                data += (rng.randint(at, at + length - 1).to_bytes(2, 'big') if is_near else rng.randbytes(1))
        else:
            data += rng.choice(WORDS).to_bytes(2, 'big')
            data += rng.randint(at, at + length - 1).to_bytes(2, 'big') if rng.random() < 0.5 else b''
        data += rng.choice(PIECES) if rng.random() < 0.1 else b''
    return bytes(data[:length])


def with_header(rng, at, data):
    """The same with a header, whose lists are right, wrong or circular."""
    words = [rng.choice([0, at + rng.randrange(len(data)), rng.randrange(0x10000)]) & 0xFFFF for _ in range(6)]
    head = bytes([0xAA, 1, 1, 0]) + b''.join(it.to_bytes(2, 'big') for it in words)
    return head[:len(data)] + data[len(head):]


def with_fill(rng, lister, at, data):
    """The same, filled up to the end of its GROM."""
    size = 0x2000 - (at + len(data)) % 0x2000
    return data + rng.choice([b'\0', b'\xFF']) * size if at + len(data) + size <= 0x10000 else data


def wishes(rng, at, length):
    found = Wishes()
    for _ in range(rng.choice([0, 0, 1, 2, 5])):
        low = rng.randrange(at, at + length)
        high = rng.randint(low, at + length)
        rng.choice([lambda: found.entries.append(low), lambda: found.entries.append(rng.randrange(0x10000)),
                    lambda: found.code.append((low, high)), lambda: found.data.append((low, high)),
                    lambda: found.pointers.append((low, high)), lambda: found.tables.append((low, high)),
                    lambda: found.covered.extend(rng.sample(range(low, high), min(4, high - low)))])()
    if rng.random() < 0.2:
        places = sorted({rng.randrange(at, at + length) for _ in range(4)})
        names = ''.join(f'>{it:04X} NAME{i}\n' for i, it in enumerate(places))
        found.names.append(('names', names + '@>8302 CELL\n>FFFF LAST\n>0010 Z00000\n'))
    return found


def images(seed, count, most):
    """Cases by a seed."""
    rng = random.Random(seed)
    for _ in range(count):
        lister = rng.choice(['gdis', 'dis'])
        length = rng.choice([1, 2, 3, 5, 13, 64, 255, rng.randint(1, most), rng.randint(1, most)])
        last = 0x10000 - length
        at = rng.choice([0x6000, 0x6000, 0, last, 0x8000 - length // 2, 0xE000 - length, rng.randint(0, last)])
        at = min(max(at, 0), last)
        at -= at % 2 if lister == 'dis' else 0
        data = rng.randbytes(length) if rng.random() < 0.4 else of_codes(rng, lister, at, length)
        if rng.random() < 0.3:
            at = rng.choice([0x6000, 0x6000, 0x8000, 0xE000]) if length <= 0x2000 else at
            data = with_header(rng, at, data)
        if rng.random() < 0.1 and length > 40:
            data = with_fill(rng, lister, at, data)
        yield Case(lister, at, data, wishes(rng, at, length))


def edges():
    """The edges of sizes and addresses, with short data and with the longest."""
    for lister in ('gdis', 'dis'):
        yield Case(lister, 0x6000, b'', Wishes())
        yield Case(lister, 0x6000, b'\0', Wishes())
        yield Case(lister, 0xFFFE, b'\x10\xFF', Wishes())
        yield Case(lister, 0x0002, bytes(65535), Wishes())                    # past the end of memory
        yield Case(lister, 0x7FF0, b'\x39\x00\x08' * 20, Wishes())
        yield Case(lister, 0xFF00, b'\x10\x7F' * 128, Wishes())               # jumps around the end of memory
        yield Case(lister, 0x0000, b'\x10\x80' * 128, Wishes())
        yield Case(lister, 0x6000, b'\xAA\1\1\0' + b'\0\0\x60\x06\0\0\0\0', Wishes())
        yield Case(lister, 0x6000, b'\xAA\1\1\0' + b'\x60\x04\x60\x05\x60\x06\x60\x07' + bytes(10), Wishes())
        yield Case(lister, 0x6000, b'\xAA' * 64, Wishes(entries=[0x6001, 0x5FFF, 0xFFFF]))
        names = ''.join(f'>6000 {it}00000\n' for it in 'ABCDEF')
        yield Case(lister, 0x6000, b'AB' * 30, Wishes(names=[('names', names)]))


def large():
    """Images of all memory."""
    rng = random.Random(1)
    for lister in ('gdis', 'dis'):
        yield Case(lister, 0, bytes(65536), Wishes())
        yield Case(lister, 0, b'\xFF' * 65536, Wishes())
        yield Case(lister, 0, b'\x0C' * 65536, Wishes())
        yield Case(lister, 0, rng.randbytes(65536), Wishes(entries=rng.sample(range(0, 65536, 2), 300)))
        yield Case(lister, 0, b"'" * 65536, Wishes())
        yield Case(lister, 0, b'A man, a plan, a canal: Panama. ' * 2048, Wishes())
        yield Case(lister, 0, b'\xAA' * 65536, Wishes())
        yield Case(lister, 0, b'\x10\x00' * 32768, Wishes())
        yield Case(lister, 0, of_codes(rng, lister, 0, 65536), Wishes(code=[(0, 65536)]))
    branches = [0x4000 + rng.randrange(0x2000) for _ in range(32768)]
    yield Case('gdis', 0, b''.join(it.to_bytes(2, 'big') for it in branches), Wishes())
    yield Case('gdis', 0, bytes([0x05, 0x00, 0x01]) * 21845, Wishes(entries=[1, 2]))
    yield Case('gdis', 0, bytes([0x0C, 0x06, 0x00, 0x01]) * 16384, Wishes())
    yield Case('dis', 0, bytes(it for _ in range(32768) for it in (0x13, rng.randrange(256))), Wishes())
    yield Case('dis', 0, b'\x06\xA0\x80\x00' * 16384, Wishes())


def objects(seed, count):
    """Sources of modules, absolute and relocatable, with names, gaps and all kinds of addresses."""
    rng = random.Random(seed)
    for _ in range(count):
        size = rng.randint(1, 60)
        name = lambda: f'L{rng.randrange(size)}'
        lines = [f'       DEF  {",".join(sorted({name() for _ in range(rng.randint(1, 4))}))}']
        lines += ['       AORG >A000'] if rng.random() < 0.3 else ['       RORG'] if rng.random() < 0.8 else []
        for i in range(size):
            line = rng.choice(['LI   R{0},{1}', 'DATA {1},{2}', 'B    @{1}', 'BL   @{1}', 'MOV  @{1}(R{0}),@{3}', 'RT',
                               'DATA {2}', "TEXT 'SOME WORDS'", 'BSS  4', 'A    *R11+,R3', 'BLWP @{1}', 'CI   R{0},{2}',
                               'BYTE {0}', 'MOVB *R{0}+,@>8300', 'JMP  $', 'MOV  @{1}-2(R{0}),@{3}+6', 'ORI  R{0},{1}'])
            lines.append(f'L{i:<5} ' + line.format(rng.randrange(1, 10), name(), rng.randrange(65536), name()))
        if rng.random() < 0.3:
            lines += [f'       AORG >{rng.randrange(0x2000, 0x3F00) & 0xFFFE:04X}', '       DATA L0,>A000']
        yield '\n'.join([*lines, f'       END  {name()}', '']).encode()
