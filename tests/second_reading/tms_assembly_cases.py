"""Cases of the assembler and of the listing of words: sources with their object text or fault line, by the
Editor/Assembler manual, and words with their listing, by the instruction table of the TMS 9900 data manual."""
import tms_copied
import tms_damage
import tms_expressions
import tms_listing
import tms_sources
import tms_table
from case import Case


def joined(generator, lines):
    """A source of lines: each ends by a line feed, some with a carriage return before it, the last perhaps by none."""
    ending = generator.choice(('\n', '\n', '\n', '\r\n'))
    text = ending.join(lines)
    if lines and generator.random() < 0.9:
        text += ending
    return text.encode('latin-1')


def source_lines(generator):
    """Lines of a source: mostly accepted ones."""
    choice = generator.randrange(12)
    if choice == 0:
        return [tms_damage.random_line(generator) for _ in range(generator.randint(0, 3))]
    lines = tms_sources.Source(generator).write()
    if choice == 1:
        lines.insert(generator.randint(0, len(lines)), tms_damage.random_line(generator))
    return tms_damage.damaged(generator, lines) if choice in (2, 3, 4) else lines


def many_names(generator):
    """A source at the limit of 256 DEF or REF names."""
    count = generator.choice((255, 256, 256, 257))
    names = [f'N{number}' for number in range(count)]
    word = generator.choice(('DEF', 'REF'))
    lines = [f' {word} ' + ','.join(names[at:at + 40]) for at in range(0, count, 40)]
    if word == 'DEF':
        lines += [f'{name} DATA {name}' for name in names[generator.choice((0, 0, 1)):]]
        lines += generator.choice(([], [' DEF N0'], [' DEF UNDEF']))
    else:
        lines += [f' DATA {generator.choice(names)}' for _ in range(20)] + generator.choice(([], [' REF N0']))
    return lines


def many_words(generator):
    """A source at the limit of 32,768 words, in a relocatable and an absolute part."""
    text = "'" + 'x' * 240 + "'"
    lines = [f' TEXT {text}'] * 150 + [' AORG 0'] + [f' TEXT {text}'] * 120
    rest = 65536 - 240 * 270
    lines += [' DATA ' + ','.join('1' for _ in range(32))] * (rest // 64) + [' DATA 1'] * (rest % 64 // 2)
    return lines + generator.choice(([], [' BYTE 1'], [' DATA 1'], [' AORG 0', ' DATA 1'], [' DATA UNDEF'],
                                     [' BYTE 300'], [' DORG 0', ' DATA 1', ' AORG 0', ' BYTE 1']))


def asm(generator):
    """A source and its object text or fault line."""
    chance = generator.random()
    if chance < 0.001:
        lines = many_words(generator)
    else:
        lines = many_names(generator) if chance < 0.006 else source_lines(generator)
    given = joined(generator, lines)
    status, out, err = tms_copied.report(given, {})
    return Case('ti_bench', ('asm',), given, {}, status, out, err, given.count(b'\n'))


CODES = [row.code for row in tms_table.ROWS.values()]


def word(generator):
    """A word: an instruction with random operands, one that differs from it by a bit, or any."""
    choice = generator.randrange(8)
    if choice == 0:
        return tms_expressions.number(generator)
    row = generator.choice(list(tms_table.ROWS.values()))
    found = row.code | generator.randrange(0x10000) & ~tms_table.MASKS[row.form] & 0xFFFF
    return found ^ 1 << generator.randrange(16) if choice == 1 else found


def address_word(generator, address):
    """The address on the command line, in digits of either case."""
    return f'{address:04X}' if generator.random() < 0.7 else f'{address:04x}'


def dis(generator):
    """Words with their listing, or bytes that run past the end of memory."""
    count = generator.choice((0, 0, 1, 1, 2, 3, 4, 40, 400, 1500))
    given = b''.join(word(generator).to_bytes(2, 'big') for _ in range(count))
    given += bytes([generator.randrange(256)]) * generator.randrange(2)
    address = generator.choice((0, 2, 0x100, 0x7FFE, 0x8000, 0xA000, 0xFFFE, 0x10000 - len(given) & 0xFFFE,
                                0x10002 - len(given) & 0xFFFE, 2 * generator.randrange(0x8000)))
    words = ('dis', address_word(generator, address))
    if address + len(given) > 0x10000:
        return Case('ti_bench', words, given, {}, 1, b'', b'past the end of memory\n', 1)
    out = tms_listing.listing(given, address)
    return Case('ti_bench', words, given, {}, 0, out, b'', out.count(b'\n'))
