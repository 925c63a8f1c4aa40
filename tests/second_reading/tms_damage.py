"""Makes refused and odd sources of accepted ones: lines that break one rule of the Editor/Assembler manual, characters
that are changed, and lines that are moved, doubled or taken out."""
import tms_expressions
import tms_operands

# lines that break a rule, or stand at its border; most are refused
FAULTS = (
    ' LI R16,1', ' LI $,UNDEF', ' LI 99,UNDEF', ' LI @5,1', ' LI *R1,1', ' JMP *R1', ' JMP @X', ' JMP UNDEF',
    ' JMP $+1', ' JMP $+258', ' JMP $-256', ' JMP 0', ' JMP >FFFE', ' SBO 128', ' SBO -129', ' SBZ $', ' TB >80',
    ' SLA R1,16', ' SRC R1', ' SRL R1,2,3', ' MOV R1', ' MOV R1,', ' MOV ,R1', ' MOV R1,,R2', ' MOV', ' MOV @,R1',
    ' MOV *,R1', ' MOV *+,R1', ' MOV @(R1),R2', ' MOV @5(),R2', ' MOV @5(R0),R2', ' MOV @5(R16),R2',
    ' MOV @5(R1)(R2),R3', ' MOV @5)(R1,R2', ' MOV R1(R2),R3', ' MOV *R1++,R2', ' MOV @5(R1)+,R2', ' MOV @$(UNDEF),R2',
    " MOV @'('(R1),R2", " MOV @')',R2", " MOV @'A(R1)',R2", ' XOP R1,16', ' LDCR R1,R16', ' STCR @2,15', ' MPY R1,@2',
    ' DIV R1,*R2', ' COC R1,16', ' LWPI', ' LWPI @5', ' LIMI 1,2', ' LIMI $', ' STWP R1,2', ' STST $', ' STWP *R1',
    ' RTWP junk', ' NOP , \'', " RT '", ' FOO', ' MOVE R1,R2', ' DXOP 1,2', ' LOAD X', ' SREF X', ' 5', " 'A'", ' =',
    ' DATA', ' DATA ,', ' DATA 1,,2', ' DATA UNDEF', ' DATA UNDEF+', " DATA UNDEF+'A", " DATA UNDEF+'ABC'", ' DATA @5',
    ' DATA *5', ' DATA 65536', ' DATA 065535', ' DATA 00000000000000000001', ' DATA >10000', ' DATA >00001', ' DATA >',
    ' DATA >G', ' DATA >12G', ' DATA 12AB', ' DATA ABCDEFG', ' DATA 1/0', ' DATA $/0', ' DATA -$', ' DATA 2*-3',
    ' DATA --1', ' DATA +1', ' DATA 1+', ' DATA 1-', ' DATA -', ' DATA $*1', ' DATA $+$', ' DATA 5-$', ' DATA $-$/2',
    ' DATA (5)', " DATA ''", " DATA 'ABC'", " DATA ''''", " DATA '''A'", " DATA 'A", " DATA 'A'B", ' DATA $5',
    ' DATA R', ' DATA 1,UNDEF,1/0', ' DATA 1/0,UNDEF', ' DATA >8000/-1', ' DATA -32768/>FFFF', ' DATA 1.5', ' DATA "A"',
    ' BYTE', ' BYTE 256', ' BYTE -129', ' BYTE >FF7F', ' BYTE $', ' BYTE 300,UNDEF', " BYTE 'AB'", " BYTE 'A'",
    ' BYTE ,', ' TEXT', " TEXT 'A", ' TEXT A', " TEXT 'A''", " TEXT 'A'B", " TEXT 'A'B'", " TEXT -'A'", " TEXT 'A','B'",
    " TEXT ''", " TEXT 'A''B'", ' TEXT "A"', ' BSS', ' BSS $', ' BSS UNDEF', ' BSS -1', ' BSS 65535', ' BSS 1,2',
    ' BSS ,', ' BES $', 'BSSX BSS BSSX', ' BES -2', ' EVEN 5', " EVEN '", ' EQU 5', ' EQU UNDEF', ' EQU', ' EQU $',
    'SELF EQU SELF', 'R5 EQU 5', 'R16 EQU 5', ' AORG', ' AORG $', ' AORG UNDEF', ' AORG >FFFE', ' AORG >FFFF',
    ' AORG 0', ' DORG 0', ' DORG $', ' DORG >FFFF', ' DORG', ' RORG UNDEF', ' RORG 1,2', ' RORG >FFFF', ' RORG >FFFE',
    ' RORG $', ' RORG junk', ' RORG', ' RORG 1', ' DEF', ' DEF 5', ' DEF UNDEF', ' DEF R1', ' DEF R1,R1', ' DEF A B',
    ' DEF ,', ' DEF ABCDEFG', ' REF', ' REF 5', ' REF R1', ' REF Q1,Q1', 'Q2 REF Q2', ' REF $', ' REF ABCDEFG',
    ' REF ,', ' IDT', ' IDT X', " IDT 'ABCDEFGHI'", " IDT 'ABCDEFGH'", " IDT 'A", " IDT 'A','B'", " IDT '\x7f'",
    " IDT 'A\tB'", " IDT '''''''''", ' TITL', ' TITL X', " TITL 'A", ' TITL A,B', " TITL 'A'B", ' END UNDEF',
    ' END 1,2', ' END ,', ' END', ' END $', ' END 5+', '5X NOP', '.X NOP', 'ABCDEFG NOP', 'X-Y NOP', "'A' NOP",
    '@X NOP', 'A,B NOP', 'A* NOP', '*A NOP', 'R0', 'R15 NOP', 'r7 NOP', '\x00', '\xff', ' \x00', ' NOP\x00', '\r',
    ' \r', ' NOP\r', ' LI R1,1\r', ' li r1,>ffff', ' Mov r1,R2', ' MOV R1 ,R2', ' MOV R1, R2', " MOV @'a',@'A'",
    " DATA 'a','A'", ' DATA a', ' COPY', ' COPY X',
)
PIECES = ('R1', 'R15', '*', '@', '(', ')', '+', '-', '*', '/', ',', "'", "'A'", '5', '>FF', '$', 'X', 'Y1', ' ', '>',
          '0', '65536', 'R1', '(R2)', '*R3+', '@5')
CHARACTERS = " \t'()*@,+-/>$.\"0159AFGRX\r\x00\xff"


def fault_lines(generator):
    """A faulty line, or two or three of them that lead to it."""
    choice = generator.randrange(12)
    if choice == 0:
        return [generator.choice((' REF EXT', ' REF EXT,EXT2')), generator.choice(EXTERNALS)]
    if choice == 1:
        return [generator.choice((' AORG >FFF8', ' DORG >FFF8', ' RORG >FFF8')), ' DATA 1,2',
                generator.choice((' DATA 3', ' DATA 3,4', ' BYTE 1,2,3', ' BYTE 1,2,3,4', ' NOP', ' BSS 3', ' BSS 4',
                                  'BB BES 4', ' EVEN', ' LI R1,2')),
                generator.choice((' DATA 4', 'Q9 EVEN', 'Q9', 'Q9 BSS 0', ' BYTE 1', 'Q9 EQU $', ' END $', ' BSS 1',
                                  'Q9 RORG')), generator.choice((' DATA Q9', ''))]
    if choice == 2:
        return [' AORG >100', generator.choice((' BYTE 1', ' BYTE 1,2', ' DATA 1', " TEXT 'ABC'", ' LI R1,2')),
                generator.choice((' AORG >100', ' AORG >101', ' AORG >102', ' AORG >103')),
                generator.choice((' BYTE 1', ' DATA 1', ' NOP', ' BYTE 300', ' DATA UNDEF', ' BSS 2', ' BYTE 1,2,3'))]
    if choice == 3:
        length = generator.choice((255, 256, 256, 257, 300))
        return [generator.choice((' NOP ', '*', ' ', " TEXT '")).ljust(length, generator.choice(" x'"))]
    return [generator.choice(FAULTS)]


EXTERNALS = (
    ' DATA EXT', ' DATA EXT,EXT,EXT', ' DATA EXT+0', ' DATA -EXT', ' DATA EXT-EXT', ' DATA EXT+UNDEF', ' DATA 1+EXT',
    ' DATA EXT*1', ' DATA EXT/0', ' BYTE EXT', ' LI R1,EXT', ' LI EXT,1', ' MOV @EXT,@EXT', ' MOV @EXT(R1),R2',
    ' MOV @2(EXT),R2', ' JMP EXT', ' LWPI EXT', ' LIMI EXT', ' SBO EXT', ' SLA R1,EXT', ' CI R1,EXT', 'QX EQU EXT',
    ' BSS EXT', ' AORG EXT', ' RORG EXT', ' DORG EXT', ' END EXT', ' DEF EXT', ' DEF EXT,UNDEF', ' DEF UNDEF,EXT',
    ' REF EXT', 'EXT NOP', 'EXT EQU 5', ' AORG 0\n DATA EXT', ' AORG 0\n DATA 1,EXT', ' DORG 0\n DATA EXT',
    ' RORG\n DATA EXT', ' AORG 0\n LI R1,EXT', ' DATA EXT\n AORG >20\n DATA EXT',
    ' DORG 8\n DATA EXT\n RORG\n DATA EXT',
)


def damaged(generator, lines):
    """The lines with one change, or a few."""
    lines = list(lines)
    for _ in range(generator.choice((1, 1, 1, 2, 3))):
        at = generator.randint(0, len(lines))
        choice = generator.randrange(10)
        if choice < 5 or not lines:
            lines[at:at] = fault_lines(generator)
        elif choice < 8:
            at = generator.randrange(len(lines))
            lines[at] = changed(generator, lines[at])
        elif choice == 8:
            lines.insert(at, generator.choice(lines))
        else:
            del lines[generator.randrange(len(lines))]
    return lines


def changed(generator, line):
    """A line with a character put in, taken out or changed, or two of its characters exchanged."""
    at = generator.randint(0, len(line))
    choice = generator.randrange(4)
    if choice == 0:
        return line[:at] + generator.choice(CHARACTERS) + line[at:]
    if choice == 1:
        return line[:at] + line[at + 1:]
    if choice == 2:
        return line[:at] + generator.choice(CHARACTERS) + line[at + 1:]
    return line[:at] + line[at + 1:at + 2] + line[at:at + 1] + line[at + 2:]


def random_operand(generator):
    """A few random pieces of an operand."""
    return ''.join(generator.choice(PIECES) for _ in range(generator.choice((0, 1, 1, 2, 2, 3, 4, 5))))


def random_line(generator):
    """A line of random pieces, often with as many operands as its operation has."""
    operation = generator.choice(tms_expressions.OPERATIONS)
    count = len(tms_operands.INSTRUCTIONS.get(operation, ' ')) + generator.choice((0, 0, 0, 0, 0, -1, 1))
    field = ','.join(random_operand(generator) for _ in range(count))
    return f'{generator.choice(("", "", "X", "Y1"))} {operation} {field}'
