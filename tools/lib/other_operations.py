"""The operations of GPL that the profile leaves out, and how many bytes they have.

The program has no instruction for them: it lists their bytes as bytes, and a run that comes to one stops by reason 1.
The rows are from memory of the GPL Programmer's Guide; none was compared with it. So a tool may pass over these bytes
as bytes where a row is certain; where it is not, or the bytes do not have their end, a person has to say what follows.
"""
import typing

# What follows a code byte. An address is one of GROM, in two bytes. An operand lies in memory, in one of the spellings
# of docs/GPL.md. A text has as many bytes as the code byte says, and the parts of FMT end with their own FEND.
BYTE, WORD, ADDRESS, OPERAND, TEXT, PARTS = 'byte', 'word', 'address', 'operand', 'text', 'parts'


class Operation(typing.NamedTuple):
    """An operation or a part of FMT: its name, its first code byte and its last one, and what follows it. It is certain
    if it surely has these bytes, and the program surely goes on after them."""
    name: str
    first: int
    last: int
    follows: tuple = ()
    is_certain: bool = True


def _moves():
    """The kinds of MOVE beside the profile's eight. A bit of the code byte each says what the length, the target and
    the source are. It is certain where each of them is of a kind that the profile has too."""
    for code in range(0x20, 0x40):
        if code not in (0x30, 0x31, 0x32, 0x33, 0x34, 0x35, 0x38, 0x39):
            length = WORD if code & 0x01 else OPERAND
            target = ADDRESS if not code & 0x10 else BYTE if code & 0x08 else OPERAND
            source = (OPERAND,) if code & 0x04 else (ADDRESS, BYTE) if code & 0x02 else (ADDRESS,)
            is_certain = bool(code & 0x10) and code & 0x06 != 0x06
            yield Operation('MOVE', code, code, (length, target, *source), is_certain)


def _with_two_operands(name, code):
    """The four codes of an operation with two operands, of which the source may be immediate, a byte or a word."""
    for i, source in enumerate((OPERAND, OPERAND, BYTE, WORD)):
        yield Operation(name, code + i, code + i, (OPERAND, source), False)


OPERATIONS = (
    Operation('SCAN', 0x03, 0x03),
    Operation('FMT', 0x08, 0x08, (PARTS,)),
    Operation('PARSE', 0x0E, 0x0E, (BYTE,)),
    Operation('XML', 0x0F, 0x0F, (BYTE,)),
    Operation('CONT', 0x10, 0x10, (), False),
    Operation('EXEC', 0x11, 0x11, (), False),
    Operation('RTNB', 0x12, 0x12, (), False),
    Operation('RTGR', 0x13, 0x13, (), False),
    *_moves(),
    Operation('COINC', 0xED, 0xED, (), False),
    *_with_two_operands('IO', 0xF4),
    *_with_two_operands('SWGR', 0xF8),
)

# After >FB inside of a repeat stands the address at which it begins again. RPTB, HTEX and the others of 32 codes or 27
# have their count, from 1 on, in the code byte.
FMT_PARTS = (
    Operation('HTEX', 0x00, 0x1F, (TEXT,)),
    Operation('VTEX', 0x20, 0x3F, (TEXT,)),
    Operation('HCHA', 0x40, 0x5F, (BYTE,)),
    Operation('VCHA', 0x60, 0x7F, (BYTE,)),
    Operation('COL+', 0x80, 0x9F),
    Operation('ROW+', 0xA0, 0xBF),
    Operation('RPTB', 0xC0, 0xDF),
    Operation('HSTR', 0xE0, 0xFA, (OPERAND,)),
    Operation('FEND', 0xFB, 0xFB),
    Operation('BIAS', 0xFC, 0xFC, (BYTE,)),
    Operation('BIAS', 0xFD, 0xFD, (OPERAND,)),
    Operation('ROW', 0xFE, 0xFE, (BYTE,)),
    Operation('COL', 0xFF, 0xFF, (BYTE,)),
)

# The names that no source can have as an operation here; MOVE is one of the profile too.
NAMES = frozenset(it.name for it in OPERATIONS) - {'MOVE'}


def _by_code(rows):
    return {code: row for row in rows for code in range(row.first, row.last + 1)}


OF_CODE, PART_OF_CODE = _by_code(OPERATIONS), _by_code(FMT_PARTS)


def length(data):
    """How many bytes the operation has that data begin with; None if they begin with none, or lack its end."""
    row = OF_CODE.get(data[0])
    if row is None:
        return None
    try:
        *_, (_, _, end) = pieces(data)
    except IndexError:
        return None
    return end if end <= len(data) else None


def pieces(data):
    """The pieces of the operation that data begin with, each with its name, where it begins and where it ends: the
    operation itself, or in place of FMT `FMT` and its parts. IndexError if the data lack its end."""
    row = OF_CODE[data[0]]
    yield row.name, 0, _after(data, 1, () if row.follows == (PARTS,) else row.follows)
    if row.follows == (PARTS,):
        for part, at, end in parts(data):
            yield part.name, at, end


def addresses(data):
    """The places of the addresses of GROM in the operation that data begin with."""
    row, found, at = OF_CODE[data[0]], [], 1
    if row.follows == (PARTS,):
        return [end - 2 for part, begin, end in parts(data) if part.name == 'FEND' and end - begin == 3]
    for kind in row.follows:
        found += [at] if kind == ADDRESS else []
        at = _after(data, at, (kind,))
    return found


def parts(data):
    """The parts of the FMT that data begin with, each with where it begins and where it ends. The last one is the FEND
    at its end; IndexError if the data lack it."""
    at, level = 1, 0
    while level >= 0:
        row = PART_OF_CODE[data[at]]
        level += {'RPTB': 1, 'FEND': -1}.get(row.name, 0)
        is_end_of_repeat = row.name == 'FEND' and level >= 0
        end = _after(data, at + 1, (ADDRESS,) if is_end_of_repeat else row.follows)
        yield row, at, end
        at = end


def operand_length(data, at):
    """How many bytes the operand in memory has that begins at a place of data."""
    if data[at] < 0x80:
        return 1
    has_index = data[at] >> 6 & 1
    return (3 if data[at] & 0x0F == 0x0F else 2) + has_index


def _after(data, at, follows):
    """The place after what follows a code byte, from a place on."""
    for kind in follows:
        if kind == TEXT:
            at += (data[at - 1] & 0x1F) + 1
        else:
            at += {BYTE: 1, WORD: 2, ADDRESS: 2}.get(kind) or operand_length(data, at)
    return at
