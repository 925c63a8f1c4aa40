"""Random GPL sources: most are accepted, others have one damage or more in them."""
import gpl_writing
from gpl_assembler import Assembler
from gpl_text import Fault

# what a damage puts into a line
PIECES = (
    "'", "''", ',', ' ', '@', '*', 'V@', 'G@', 'R@', '(@', ')', '(', '>', '$', '+', '-', '/0', '*', '65536', '>10000',
    '99999', 'Z', 'ZZZZZZZ', '\t', '\r', 'D', '.', '\x80', '0', '>FFFF', '(@>8400)', '(@>8300)', '"', '""', '&',
)
# lines that are refused, or are at a border of it
BORDERS = (
    ' EVEN', ' BES 2', ' DEF A', ' NOP', " IDT 'A'", ' TITL', ' DFETCH @>8300', ' DPUSH @>8300', ' FMT', ' COINC @0',
    ' XML 1', ' DATA @5', ' GROM @0', ' GROM >6001', ' GROM', ' AORG >2000', ' AORG >1FFF', ' AORG -1', ' AORG',
    ' AORG $', ' EQU 5', ' EQU UNDEF', ' BSS >2000', ' BSS 65535', ' BSS', ' BSS UNDEF', ' BYTE 256', ' BYTE -128',
    ' BYTE -129', ' BYTE', ' BYTE ,', ' DATA 1,,2', ' DATA 1/0', ' TEXT', " TEXT 'A", " TEXT 'A''", " TEXT ''",
    " TEXT 'A','B'", " TEXT 'A'+1", ' TEXT A', ' ST @>8300', ' ST 5,@>8300', ' ST @>8300,5,6', ' ST R@0,5',
    ' ST @>8300,G@0', ' ST @>8300,-129', ' DST @>8300,-129', ' EX @>8300,5', ' EX @>8300,@>8301', ' INC 5', ' INC',
    ' FETCH 5', ' RAND @0', ' RAND 256', ' BR @0', ' BR >8010', ' BR', ' B *5', ' CALL V@0', ' MOVE 1,R@0,@>8300',
    ' MOVE 1,R@0,G@0(@>8300)', ' MOVE 1,R@256,G@0', ' MOVE 1,R@-1,G@0', ' MOVE 1,G@0,@>8300', ' MOVE 1,5,@>8300',
    ' MOVE 1,@>8300,5', ' MOVE G@0,@>8300,@>8300', ' MOVE 1,@>8300', ' MOVE 1,@>8300,G@0(@>8400)',
    ' MOVE 1,@>8300,G@UNDEF(@0)', ' MOVE UNDEF,@>8300,G@0(@0)', ' MOVE 1,R@300,G@UNDEF', ' ST @5(>8302),1',
    ' ST @5(R1),1', ' ST @UNDEF,1', ' ST @5(@>82FF),1', ' ST @5(@>8400),@UNDEF', ' ST @,1', ' ST @(@>8300),1',
    ' ST @>8300(@),1', ' ST V*5,1', ' ST @>8300,5(@>8300)', ' MOVE 1,R@0(@>8300),G@0', ' ST *>8300+,1',
    ' ST @>12345,1', " RTN '", ' EXIT ,,', ' RTNC 5', ' DRTN', ' DMOVE 1,@>8300,@>8300', ' END @5', ' END 1,2',
    ' END UNDEF', ' END ,', 'R1 RTN', 'R16 RTN', 'TOOLONG RTN', '1A RTN', 'A+B RTN', 'A.', "'", " '", 'X EQU X',
    'X BSS X', 'X ST @X,1', 'X DATA X', '\rRTN', ' RTN\r', " DATA 'ABC'", " DATA ''", " DATA ''''", " DATA 'A",
    " DATA UNDEF+'A", " DATA UNDEF+'ABC'", ' DATA 12AB', ' DATA UNDEF+12AB', ' DATA >', ' DATA >1G', ' DATA 5+',
    ' DATA +5', ' DATA --5', ' DATA -5', ' DATA 5--5', ' DATA 65536', ' DATA UNDEF+65536', ' DATA >00001',
    ' DATA 007', ' DATA $', ' DATA $$', ' DATA -32768/-1', ' DATA -7/2', ' DATA 7/-2', ' DATA UNDEF,65536',
    ' DATA 1*2*3+4/5-6', ' BYTE 999,UNDEF', ' BYTE UNDEF,999', ' BYTE 999,1/0', ' COPY "A"', ' MUL @>8300,R1',
    ' SLL @>8300,R8', ' DSRC @>8300,V@0',
)


def grown(generator, count):
    """Lines that the first checks take, one by one, and the assembler that took them. Names of later lines come to be
    labels or are defined at the end; a last line may be refused."""
    assembler = Assembler()
    later = [gpl_writing.name(generator) for _ in range(generator.randrange(5))]
    lines = []
    while len(lines) < count:
        line = generator.choice(BORDERS) if generator.random() < 0.02 else \
            gpl_writing.statement(generator, assembler.names, later, assembler.location)
        try:
            assembler.line(line)
        except Fault:
            if generator.random() < 0.01:
                lines.append(line)
                break
            continue
        lines.append(line)
        if assembler.ended:
            return lines
        if generator.random() < 0.5:
            later = [name for name in later if name not in assembler.names]
    if generator.random() < 0.95:
        lines += [f'{name} EQU >{generator.randrange(0x10000):04X}' for name in dict.fromkeys(later)
                  if name not in assembler.names]
    if generator.random() < 0.8:
        lines.append(generator.choice((' END', f' END >{generator.randrange(0x10000):X}', ' end $')))
    return lines


def damaged_line(generator, line):
    """A line with a piece put in, taken out, or put in place of another."""
    place = generator.randrange(len(line) + 1)
    choice = generator.random()
    if choice < 0.5:
        return line[:place] + generator.choice(PIECES) + line[place:]
    if choice < 0.75:
        return line[:place] + line[place + generator.choice((1, 1, 2, 5)):]
    if choice < 0.95:
        return line[:place] + generator.choice(PIECES) + line[place + 1:]
    return line + ' ' * max(0, generator.choice((255, 256, 257)) - len(line))


def damaged(generator, lines):
    """Lines with one damage: in a line, or a line of the borders more, or a line twice, away or elsewhere."""
    lines = list(lines)
    place = generator.randrange(len(lines))
    choice = generator.random()
    if choice < 0.5:
        lines[place] = damaged_line(generator, lines[place])
    elif choice < 0.75:
        lines.insert(place, generator.choice(BORDERS))
    elif choice < 0.85:
        lines.insert(place, generator.choice(lines))
    elif choice < 0.93:
        del lines[place]
    elif choice < 0.97:
        other = generator.randrange(len(lines))
        lines[place], lines[other] = lines[other], lines[place]
    else:
        lines.insert(place, generator.choice(('', ' ', ' DATA ', " TEXT '", ' ST @')) + ''.join(
            chr(generator.randrange(256)) for _ in range(generator.randrange(1, 20))))
    return lines


def text_of(generator, lines):
    """A text of lines, each ended as one of these systems ends it; the last may not be ended."""
    end = generator.choice(('\n', '\n', '\n', '\r\n'))
    return end.join(lines) + generator.choices((end, '', '\r'), (12, 4, 1))[0]


def source(generator):
    """A source, with no damage in most of them."""
    lines = grown(generator, generator.choice((0, 1, 2, 3, 5, 8, 20, 60)))
    while lines and generator.random() < 0.3:
        lines = damaged(generator, lines)
    return text_of(generator, lines)
