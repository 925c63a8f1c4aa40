"""Cases of sources that copy files: a source is cut into pieces that lie in files, which copy each other, and some of
these lines break a rule of COPY."""
import tms_assembly_cases
import tms_copied
import tms_damage
import tms_sources
from case import Case

NAMES = ('A', 'a', 'B.SRC', 'b_2', '-x', '_', '9', 'part-1.asm', 'N' * 60, 'x..y', 'COPY')
# COPY lines that break a rule or stand at its border
ODD = (
    ' COPY', ' COPY A', ' COPY ""', ' COPY "A', " COPY 'A", ' COPY "A\'', ' COPY ".A"', ' COPY "A/B"', ' COPY "../A"',
    ' COPY "A","B"', ' COPY "A" "B"', ' COPY "A"B', 'X COPY "A"', 'R1 COPY "A"', '5 COPY "A"', ' COPY "A B"',
    " COPY 'A B'", ' COPY "' + 'N' * 61 + '"', ' COPY "missing"', ' COPY "\xe9"', ' copy "A" a comment', " Copy 'A'",
    '\tCOPY\t"A"\t', ' COPY "A"\r', ' COPYX "A"', '*COPY "A"', ' COPY  "A" \'', " COPY 'A'''", " COPY 'A'  'B'",
    ' COPY "A"' + ' ' * 247, ' COPY "A"' + ' ' * 248, ' COPY @A', ' COPY "N",',
)


def cut(generator, lines, files, depth):
    """The lines with parts of them in files instead."""
    if depth > generator.choice((1, 2, 4)) or len(lines) < 2:
        return lines
    first = generator.randrange(len(lines))
    last = generator.randint(first, len(lines))
    name = generator.choice(NAMES)
    if name in files:
        return lines
    files[name] = b''
    inner = cut(generator, lines[first:last], files, depth + 1)
    files[name] = tms_assembly_cases.joined(generator, inner)
    quote = generator.choice('"\'')
    line = f' COPY {quote}{name}{quote}' + generator.choice(('', '', ' comment', " isn't"))
    return cut(generator, [*lines[:first], line, *lines[last:]], files, depth)


def chain(generator):
    """Files that copy each other to the deepest that is allowed, and one deeper."""
    depth = generator.choice((3, 4, 4, 5))
    files = {f'F{number}': f' DATA {number}\n COPY "F{number + 1}"\n DATA $\n'.encode() for number in range(1, depth)}
    files[f'F{depth}'] = generator.choice((b' NOP\n', b' FOO\n', b' DATA UNDEF\n', b' END\n', b'', b'X NOP', b'\r'))
    return [' COPY "F1"', 'X DATA 9'], files


def many(generator):
    """As many COPY lines as are allowed, and one more."""
    count = generator.choice((15, 16, 16, 17))
    files = {'ONE': b'\n'.join([b' COPY "TWO"'] * generator.choice((3, 3, 4))), 'TWO': b' BYTE 1'}
    return [' COPY "ONE"'] * count + generator.choice(([], [' COPY "TWO"'], [' FOO'])), files


def large(generator):
    """A file, or the input, at the limit of its size."""
    size = tms_copied.LARGEST_COPY + generator.choice((0, 1))
    line = b'*' + b'x' * 254 + b'\n'
    files = {'L': (line * (size // len(line) + 1))[:size - 2] + b'\n ', 'A': b' COPY "L"\n'}
    return generator.choice(([' COPY "L"'], [' COPY "A"', ' FOO'], [' FOO', ' COPY "L"'])), files


def copied(generator):
    """A source with files, and its object text or fault line."""
    chance, files = generator.random(), {}
    if chance < 0.06:
        lines, files = chain(generator)
    elif chance < 0.1:
        lines, files = many(generator)
    elif chance < 0.102:
        lines, files = large(generator)
    elif chance < 0.103:
        lines = ['x' * (tms_copied.LARGEST_INPUT + generator.choice((-3, 1)))]
    else:
        lines = tms_sources.Source(generator).write()
        if chance < 0.2:
            lines = tms_damage.damaged(generator, lines)
        elif chance < 0.35:
            lines.insert(generator.randint(0, len(lines)), generator.choice(ODD))
        lines = cut(generator, lines, files, 0)
        if generator.random() < 0.05 and files:
            del files[generator.choice(sorted(files))]
        if generator.random() < 0.05:
            lines.append(f' COPY "{generator.choice(NAMES)}"')
    given = tms_assembly_cases.joined(generator, lines)
    status, out, err = tms_copied.report(given, files)
    counted = sum(data.count(b'\n') for data in (given, *files.values()))
    return Case('ti_bench', ('asm',), given, files, status, out, err, counted)
