"""What each instruction does, by the TMS 9900 data manual."""
import tms_flags
import tms_table
from tms_flags import CARRY, COMPARED, EQUAL, EXTENDED, OVERFLOW, PARITY, SUMMED


class WordRefused(Exception):
    """A word that is no instruction, or one that the profile does not execute."""


def two(cpu, word, name):
    """An instruction of two general operands, words."""
    memory = cpu.memory
    source = memory.read_word(cpu.operand(word & 0x3F, 2))
    address = cpu.operand(word >> 6 & 0x3F, 2)
    if name == 'MOV':
        memory.write_word(address, source)
        cpu.bits(COMPARED, tms_flags.compared(source, 0, 0x8000))
        return
    there = memory.read_word(address)
    result, mask, bits = TWO_RESULTS[name](there, source, 0x8000)
    if result is not None:
        memory.write_word(address, result)
    cpu.bits(mask, bits)


def two_bytes(cpu, word, name):
    """An instruction of two general operands, bytes; MOVB writes its destination without reading it."""
    memory = cpu.memory
    source = memory.read_byte(cpu.operand(word & 0x3F, 1))
    address = cpu.operand(word >> 6 & 0x3F, 1)
    there = 0 if name == 'MOVB' else memory.read_byte(address)
    result, mask, bits = TWO_RESULTS[name[:-1]](there, source, 0x80)
    if result is not None:
        memory.write_byte(address, result)
    odd = tms_flags.ODD[source if result is None else result]
    cpu.bits(mask | PARITY, bits | (PARITY if odd else 0))


def moved(result, sign):
    return result, COMPARED, tms_flags.compared(result, 0, sign)


def added(there, source, sign):
    result, bits = tms_flags.added(there, source, sign)
    return result, SUMMED, bits


def subtracted(there, source, sign):
    result, bits = tms_flags.subtracted(there, source, sign)
    return result, SUMMED, bits


# the result of a destination and a source, the status bits that it changes, and these bits; a comparison has no result
TWO_RESULTS = {
    'SZC': lambda there, source, sign: moved(there & ~source, sign),
    'S': subtracted,
    'C': lambda there, source, sign: (None, COMPARED, tms_flags.compared(source, there, sign)),
    'A': added,
    'MOV': lambda there, source, sign: moved(source, sign),
    'SOC': lambda there, source, sign: moved(there | source, sign),
}


def coc(cpu, word, name):
    """COC and CZC: whether the source's ones are all ones, or all zeros, in the register."""
    source = cpu.memory.read_word(cpu.operand(word & 0x3F, 2))
    there = cpu.register(word >> 6 & 15)
    if name == 'COC':
        there = ~there
    cpu.bits(EQUAL, 0 if source & there else EQUAL)


def xor(cpu, word, name):
    source = cpu.memory.read_word(cpu.operand(word & 0x3F, 2))
    number = word >> 6 & 15
    result = source ^ cpu.register(number)
    cpu.set_register(number, result)
    cpu.bits(COMPARED, tms_flags.compared(result, 0, 0x8000))


def xop(cpu, word, name):
    """The source's address goes to the new R11; the status that is saved has X as it was."""
    address = cpu.operand(word & 0x3F, 2)
    saved = cpu.workspace, cpu.counter, cpu.status, address
    cpu.enter(0x40 + 4 * (word >> 6 & 15), saved)
    cpu.status |= EXTENDED


def mpy(cpu, word, name):
    source = cpu.memory.read_word(cpu.operand(word & 0x3F, 2))
    number = word >> 6 & 15
    product = source * cpu.register(number)
    cpu.set_register(number, product >> 16)
    cpu.set_register(number + 1, product & 0xFFFF)


def div(cpu, word, name):
    """Both words are read, whatever the source holds; if the quotient does not fit, OV alone is set."""
    source = cpu.memory.read_word(cpu.operand(word & 0x3F, 2))
    number = word >> 6 & 15
    high, low = cpu.register(number), cpu.register(number + 1)
    if source <= high:
        cpu.status |= OVERFLOW
        return
    quotient, remainder = divmod(high << 16 | low, source)
    cpu.set_register(number, quotient)
    cpu.set_register(number + 1, remainder)
    cpu.status &= ~OVERFLOW


def shift(cpu, word, name):
    """A count of 0 takes the low four bits of R0, and 0 there means 16."""
    number = word & 15
    value = cpu.register(number)
    count = word >> 4 & 15 or cpu.register(0) & 15 or 16
    result, bits = tms_flags.shifted(name, value, count)
    cpu.set_register(number, result)
    cpu.bits(COMPARED | CARRY | (OVERFLOW if name == 'SLA' else 0), bits)


def blwp(cpu, word, name):
    address = cpu.operand(word & 0x3F, 2)
    cpu.enter(address, (cpu.workspace, cpu.counter, cpu.status))


def branch(cpu, word, name):
    cpu.counter = cpu.operand(word & 0x3F, 2) & 0xFFFE


def link(cpu, word, name):
    """BL: the return address goes to R11."""
    address = cpu.operand(word & 0x3F, 2)
    cpu.set_register(11, cpu.counter)
    cpu.counter = address & 0xFFFE


def one(cpu, word, name):
    """An instruction that changes the word at its operand."""
    address = cpu.operand(word & 0x3F, 2)
    result, mask, bits = ONE_RESULTS[name](cpu.memory.read_word(address))
    cpu.memory.write_word(address, result)
    cpu.bits(mask, bits)


def summed(pair):
    return pair[0], SUMMED, pair[1]


def inverted(word):
    result = ~word & 0xFFFF
    return result, COMPARED, tms_flags.compared(result, 0, 0x8000)


# the result of the word at the operand, the status bits that it changes, and these bits
ONE_RESULTS = {
    'CLR': lambda word: (0, 0, 0),
    'SETO': lambda word: (0xFFFF, 0, 0),
    'SWPB': lambda word: (word << 8 & 0xFF00 | word >> 8, 0, 0),
    'INV': inverted,
    'NEG': lambda word: summed(tms_flags.negated(word)),
    'ABS': lambda word: summed(tms_flags.absolute(word)),
    'INC': lambda word: summed(tms_flags.added(word, 1, 0x8000)),
    'INCT': lambda word: summed(tms_flags.added(word, 2, 0x8000)),
    'DEC': lambda word: summed(tms_flags.subtracted(word, 1, 0x8000)),
    'DECT': lambda word: summed(tms_flags.subtracted(word, 2, 0x8000)),
}


def taken(name, status):
    """Whether a jump is taken."""
    logical, arithmetic, equal, carry, overflow, parity = (status >> 15 - bit & 1 for bit in range(6))
    return {'JMP': 1, 'JLT': not arithmetic and not equal, 'JLE': not logical or equal, 'JEQ': equal,
            'JHE': logical or equal, 'JGT': arithmetic, 'JNE': not equal, 'JNC': not carry, 'JOC': carry,
            'JNO': not overflow, 'JL': not logical and not equal, 'JH': logical and not equal, 'JOP': parity}[name]


TAKEN = {}


def jump(cpu, word, name):
    """A jump counts words from the next instruction."""
    key = name, cpu.status >> 10
    if key not in TAKEN:
        TAKEN[key] = taken(name, cpu.status)
    if TAKEN[key]:
        cpu.counter = cpu.counter + 2 * ((word & 0xFF ^ 0x80) - 0x80) & 0xFFFE


def load(cpu, word, name):
    value = cpu.next_word()
    cpu.set_register(word & 15, value)
    cpu.bits(COMPARED, tms_flags.compared(value, 0, 0x8000))


def immediate(cpu, word, name):
    """AI, ANDI, ORI."""
    value, number = cpu.next_word(), word & 15
    there = cpu.register(number)
    if name == 'AI':
        result, bits = tms_flags.added(there, value, 0x8000)
    else:
        result = there & value if name == 'ANDI' else there | value
        bits = tms_flags.compared(result, 0, 0x8000)
    cpu.set_register(number, result)
    cpu.bits(SUMMED if name == 'AI' else COMPARED, bits)


def compare(cpu, word, name):
    value = cpu.next_word()
    cpu.bits(COMPARED, tms_flags.compared(cpu.register(word & 15), value, 0x8000))


def store(cpu, word, name):
    cpu.set_register(word & 15, cpu.workspace if name == 'STWP' else cpu.status)


def workspace(cpu, word, name):
    cpu.workspace = cpu.next_word() & 0xFFFE


def mask(cpu, word, name):
    cpu.bits(0x000F, cpu.next_word() & 0x000F)


def come_back(cpu, word, name):
    """RTWP: workspace, counter and status from R13, R14, R15."""
    found = [cpu.register(number) for number in (13, 14, 15)]
    cpu.workspace, cpu.counter, cpu.status = found[0] & 0xFFFE, found[1] & 0xFFFE, found[2]


EXECUTED = {'COC': coc, 'CZC': coc, 'XOR': xor, 'XOP': xop, 'MPY': mpy, 'DIV': div, 'BLWP': blwp, 'B': branch,
            'BL': link, 'LI': load, 'AI': immediate, 'ANDI': immediate, 'ORI': immediate, 'CI': compare, 'STWP': store,
            'STST': store, 'LWPI': workspace, 'LIMI': mask, 'RTWP': come_back,
            **{name: shift for name in ('SRA', 'SRL', 'SLA', 'SRC')}, **{name: one for name in ONE_RESULTS},
            **{name: jump for name in ('JMP', 'JLT', 'JLE', 'JEQ', 'JHE', 'JGT', 'JNE', 'JNC', 'JOC', 'JNO', 'JL', 'JH',
                                       'JOP')}}


def refuse(cpu, word, name):
    raise WordRefused


def decoded(word):
    """What executes a word, and the name of its instruction."""
    row = tms_table.row_of(word)
    if not row or row.name in tms_table.STOPPING:
        return refuse, ''
    if row.form == 'Two':
        return two_bytes if row.code & 0x1000 else two, row.name
    return EXECUTED[row.name], row.name
