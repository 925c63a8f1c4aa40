"""Cases of exec: programs as object text, the number of instructions that they may make, and the end and the dump of
their run by the TMS 9900 data manual."""
import tms_expressions
import tms_link_cases
import tms_object
import tms_programs
import tms_runs
import tms_table
from case import Case
from tms_text import ABSOLUTE, RELOCATABLE

LIMITS = (0, 1, 2, 3, 10, 100, 500, 2000, 5000, 5000, 10000)
# where the code lies: relocatable, or absolute in expansion memory or read-only memory
BASES = (0xA000, 0xA000, 0xA000, 0x2400, 0x0400, 0xFF00)


def looping(generator, base):
    """A program of loops."""
    program = tms_programs.Program(generator, base)
    if program.chance(0.3):
        program.put(tms_programs.code('LWPI'), generator.choice(tms_programs.WORKSPACES))
    program.pointers(generator.choice((2, 4, 8, 16)))
    for _ in range(generator.choice((1, 1, 2))):
        program.loop(generator.choice((1, 2, 10, 50, 200)))
    program.end()
    return program.words


def straight(generator, base):
    """A few instructions, often in a workspace at a border or with registers that are ports."""
    program = tms_programs.Program(generator, base)
    program.daring = generator.choice((0.1, 0.3, 0.7))
    program.pointers(generator.choice((2, 4, 8, 16)))
    if program.chance(0.6):
        program.put(tms_programs.code('LWPI'), generator.choice(tms_programs.ODD_WORKSPACES))
    for _ in range(generator.choice((1, 2, 4, 8))):
        program.instruction()
    program.end()
    return program.words


def hazards(generator, base):
    """Instructions of which one access of several is to a port: what came before it must be taken back."""
    program = tms_programs.Program(generator, base)
    program.daring = 0.5
    register = generator.randrange(16)
    program.load(register, generator.choice(tms_programs.PORTS) - generator.choice((0, 0, 1, 2)) & 0xFFFF)
    program.put(tms_programs.code('MOV') | register, tms_programs.code('SWPB') | generator.randrange(16))
    port = generator.choice(tms_programs.PORTS)
    program.port_write()
    workspace = port - 2 * generator.randrange(16) & 0xFFFE
    if program.chance(0.5):
        program.put(tms_programs.code('LWPI'), workspace)
    for _ in range(generator.choice((1, 2, 4))):
        row = generator.choice(list(tms_table.ROWS.values()))
        word = row.code | generator.randrange(0x10000) & ~tms_table.MASKS[row.form] & 0xFFFF
        program.put(word, *(generator.choice((port, port + 1, port - 2, 0x8300, 0xFFFE))
                            for _ in range(tms_table.following(row, word))))
    program.end()
    return program.words


def random_words(generator, base):
    """Words of which most are instructions."""
    rows = list(tms_table.ROWS.values())
    found = []
    for _ in range(generator.choice((1, 5, 20, 60))):
        row = generator.choice(rows)
        if row.name not in tms_table.STOPPING and row.form != 'Bare':
            found.append(row.code | generator.randrange(0x10000) & ~tms_table.MASKS[row.form] & 0xFFFF)
    return found or [tms_expressions.number(generator)]


MAKERS = (looping, looping, looping, looping, looping, straight, straight, hazards, random_words)


def piece(generator, base, at, word):
    """A word at an address as a piece of a module: code at >A000 is relocatable, and so are some of its addresses."""
    if base != 0xA000 or at < base:
        return ABSOLUTE, at, ABSOLUTE, word
    if word >= base and generator.random() < 0.8:
        return RELOCATABLE, at - base, RELOCATABLE, word - base
    return RELOCATABLE, at - base, ABSOLUTE, word


def module(generator, base, words):
    """The module of a program with the vectors of XOP, their routine, and some data."""
    words = words[:(0x10000 - base) // 2]
    pieces = [piece(generator, base, base + 2 * number, word) for number, word in enumerate(words)]
    if generator.random() < 0.7:
        for number in range(16):
            workspace = generator.choice((0x2200, 0x8320, 0x8301, *generator.sample(tms_programs.ODD_WORKSPACES, 1)))
            vector = (workspace, generator.choice((0x0100, 0x0101, 0x0102, 0x0106)))
            pieces += [(ABSOLUTE, 0x40 + 4 * number + 2 * which, ABSOLUTE, vector[which]) for which in (0, 1)]
        routine = (0x059B, 0xC2DB, 0x06C0, 0x0380)
        pieces += [(ABSOLUTE, 0x100 + 2 * number, ABSOLUTE, word) for number, word in enumerate(routine)]
    pieces += [(ABSOLUTE, 0x2000 + 2 * number, ABSOLUTE, tms_expressions.number(generator))
               for number in range(generator.choice((0, 1, 20)))]
    entry = (RELOCATABLE, 0) if base == 0xA000 else (ABSOLUTE, base)
    if generator.random() < 0.05:
        odd = entry[0], entry[1] + 1
        entry = generator.choice((odd, (ABSOLUTE, 0x8800), (ABSOLUTE, 0), (ABSOLUTE, 0xFFFF), None))
    size = 2 * len(words) if base == 0xA000 else 0
    return tms_object.Module('RUN', size, pieces, [], [], entry)


def limits(generator, given):
    """A limit, often at the number of instructions that a short run makes."""
    limit = generator.choice(LIMITS)
    if generator.random() < 0.25:
        count = tms_runs.exec_report(given, 200)[3]
        limit = max(0, count + generator.choice((-1, 0, 0, 1)))
    return limit


def executed(generator):
    """A program and the report of its run."""
    base = generator.choice(BASES)
    words = generator.choice(MAKERS)(generator, base)
    given = tms_object.text_of(module(generator, base, words))
    if generator.random() < 0.04:
        given = tms_link_cases.damaged(generator, given)
    limit = limits(generator, given)
    status, out, err, count = tms_runs.exec_report(given, limit)
    return Case('ti_bench', ('exec', f'{limit}'), given, {}, status, out, err, count)
