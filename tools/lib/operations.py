"""The operations and directives of both languages: of each its operands, what it does in one sentence, the status bits
that it changes, and its code.

The names and codes are compared with the definitions, and the tables of docs/GPL.md and docs/ASSEMBLER.md that have the
sentences are written from here (tools/editors). The rules themselves are in docs/GPL_STEP.md and docs/MACHINE.md.
"""
import typing

GPL, ASSEMBLER = 'gpl', 'asm'


class Operation(typing.NamedTuple):
    """An operation or a directive. An operation has a code; a directive has none. One that is no directive of the
    program, as MACRO, is a form that tools/expand expands."""
    name: str
    operands: str
    does: str
    status: str = ''
    code: str = ''
    is_form: bool = False

    @property
    def is_directive(self):
        return not self.code

    @property
    def is_bare(self):
        """Whether what follows is a comment."""
        return self.operands == 'none'


RESULT = 'H, GT, COND, CARRY, OVF'
MEMORY, BOTH = 'in memory', 'destination in memory, source in memory or immediate'

# the operations of GPL of one operand in memory, and those of two, which have a form of words with D before the name:
# name, first code, status, and what it does
_ONE = (
    ('ABS', 0x80, RESULT, 'The operand becomes its value without the sign'),
    ('NEG', 0x82, RESULT, 'The operand becomes its negative'),
    ('INV', 0x84, '', 'Each bit of the operand becomes the other one'),
    ('CLR', 0x86, '', 'The operand becomes 0'),
    ('CASE', 0x8A, 'COND', 'The program goes on at the next address plus twice the operand, and COND becomes 0'),
    ('CZ', 0x8E, 'COND', 'COND becomes 1 if the operand is 0, and else 0'),
    ('INC', 0x90, RESULT, '1 is added to the operand'),
    ('DEC', 0x92, RESULT, '1 is subtracted from the operand'),
    ('INCT', 0x94, RESULT, '2 is added to the operand'),
    ('DECT', 0x96, RESULT, '2 is subtracted from the operand'),
)
_TWO = (
    ('ADD', 0xA0, RESULT, 'The source is added to the destination'),
    ('SUB', 0xA4, RESULT, 'The source is subtracted from the destination'),
    ('MUL', 0xA8, '', 'The product of both, as numbers without sign, is stored at the destination in twice the width'),
    ('DIV', 0xAC, 'OVF', 'The number of twice the width at the destination is divided by the source, without signs: '
     'the quotient is stored there and the remainder after it; OVF becomes 1, and nothing is stored, if the quotient '
     'does not fit'),
    ('AND', 0xB0, '', 'The destination keeps the ones that the source has too'),
    ('OR', 0xB4, '', 'The destination gets the ones of the source'),
    ('XOR', 0xB8, '', 'The destination gets the ones that one of both has alone'),
    ('ST', 0xBC, '', 'The source is stored at the destination'),
    ('CH', 0xC4, 'COND', 'COND becomes 1 if the destination is above the source, both without sign, and else 0'),
    ('CHE', 0xC8, 'COND', 'COND becomes 1 if the destination is at least the source, both without sign, and else 0'),
    ('CGT', 0xCC, 'COND', 'COND becomes 1 if the destination is above the source, both with sign, and else 0'),
    ('CGE', 0xD0, 'COND', 'COND becomes 1 if the destination is at least the source, both with sign, and else 0'),
    ('CEQ', 0xD4, 'COND', 'COND becomes 1 if both are equal, and else 0'),
    ('CLOG', 0xD8, 'COND', 'COND becomes 1 if both have no ones in common, and else 0'),
    ('SRA', 0xDC, '', 'The destination is shifted to the right by the low four bits of the source, and keeps its sign'),
    ('SLL', 0xE0, '', 'The destination is shifted to the left by the low four bits of the source'),
    ('SRL', 0xE4, '', 'The destination is shifted to the right by the low four bits of the source, and 0 comes in'),
    ('SRC', 0xE8, '', 'The destination is rotated to the right by the low four bits of the source'),
)


def _words(operation):
    """The form of words of an operation: its codes are one above."""
    code = ' '.join(f'>{int(it[1:], 16) + 1:02X}' for it in operation.code.split())
    return operation._replace(name=f'D{operation.name}', does=f'{operation.does} (words)', code=code)


def _gpl():
    for name, code, status, does in _ONE:
        one = Operation(name, MEMORY, does, status, f'>{code:02X}')
        yield from (one, _words(one))
    for name, code, status, does in _TWO:
        two = Operation(name, BOTH, does, status, f'>{code:02X} >{code + 2:02X}')
        yield from (two, _words(two))
    exchange = Operation('EX', 'two in memory', 'Both operands exchange their values', '', '>C0')
    yield from (exchange, _words(exchange))
    yield from (
        Operation('RTN', 'none', 'The program goes on at the address on the stack of return addresses, which is taken '
                  'off, and COND becomes 0', 'COND', '>00'),
        Operation('RTNC', 'none', 'The program goes on at the address on the stack of return addresses, which is taken '
                  'off, and COND stays', '', '>01'),
        Operation('RAND', 'a byte', 'The cell >8378 gets a random number from 0 to the operand', '', '>02'),
        Operation('BACK', 'a byte', 'Register 7 of the video processor, the colour of the border, is loaded', '',
                  '>04'),
        Operation('B', 'an address', 'The program goes on at the address', '', '>05'),
        Operation('CALL', 'an address', 'The next address is put on the stack of return addresses, and the program '
                  'goes on at the operand', '', '>06'),
        Operation('ALL', 'a byte', 'The byte is stored in the 768 places of the screen', '', '>07'),
        Operation('H', 'none', 'COND becomes the bit H of the status', 'COND', '>09'),
        Operation('GT', 'none', 'COND becomes the bit GT of the status', 'COND', '>0A'),
        Operation('EXIT', 'none', 'The program ends', '', '>0B'),
        Operation('CARRY', 'none', 'COND becomes the bit CARRY of the status', 'COND', '>0C'),
        Operation('OVF', 'none', 'COND becomes the bit OVF of the status', 'COND', '>0D'),
        Operation('MOVE', 'length, target, source', 'As many bytes as the length says are copied upward, one by one, '
                  'from memory or GROM into memory, or from GROM into video registers', '', '>30 to >35, >38, >39'),
        Operation('BR', 'an address in the GROM of the line', 'The program goes on at the address if COND is 0; COND '
                  'becomes 0', 'COND', '>40 to >5F'),
        Operation('BS', 'an address in the GROM of the line', 'The program goes on at the address if COND is 1; COND '
                  'becomes 0', 'COND', '>60 to >7F'),
        Operation('FETCH', MEMORY, 'The byte of GROM at the return address is stored, and the return address becomes '
                  'the next one', '', '>88'),
        Operation('PUSH', MEMORY, 'The operand is put on the data stack', '', '>8C'),
        Operation('GROM', 'e', 'The location becomes e, a multiple of >2000'),
        Operation('AORG', 'e', 'The location becomes the offset e in the GROM that was set last'),
        Operation('EQU', 'e', 'The label gets the value e'),
        Operation('DATA', 'e,e,..', 'Words are placed, the high byte first'),
        Operation('BYTE', 'e,e,..', 'Bytes are placed'),
        Operation('TEXT', "'characters'", 'The characters of a text are placed'),
        Operation('BSS', 'e', 'The location grows by e, and nothing is placed'),
        Operation('END', 'none, or e', 'The source ends here, with the entry e if it has one'))


_LOGICAL, _SUM = 'L>, A>, EQ', 'L>, A>, EQ, C, OV'
_ANY, _FIRST, _NUMBER = ('source, destination, each in any mode', 'source in any mode, register',
                         'source in any mode, number from 0 to 15')
_ONE_ANY, _COUNT, _VALUE = 'one, in any mode', 'register, count from 0 to 15', 'register, value'
_TARGET = 'the target, at most 128 words before or 127 after the next instruction'
_BIT = 'displacement from -128 to 127'
_LOADED = f'{_LOGICAL}; OP if at most 8 bits'
_NOT_EXECUTED = '; exec does not execute it'

# the operations of the TMS9900: name, code, operands, status, and what it does
_TMS9900 = (
    ('SZC', 0x4000, _ANY, _LOGICAL, "The source's ones are cleared in the destination"),
    ('SZCB', 0x5000, _ANY, f'{_LOGICAL}, OP', "The source's ones are cleared in the destination, a byte"),
    ('S', 0x6000, _ANY, _SUM, 'The source is subtracted from the destination'),
    ('SB', 0x7000, _ANY, f'{_SUM}, OP', 'The source is subtracted from the destination, a byte'),
    ('C', 0x8000, _ANY, _LOGICAL, 'The source is compared with the destination'),
    ('CB', 0x9000, _ANY, f'{_LOGICAL}, OP', 'The source is compared with the destination, a byte'),
    ('A', 0xA000, _ANY, _SUM, 'The source is added to the destination'),
    ('AB', 0xB000, _ANY, f'{_SUM}, OP', 'The source is added to the destination, a byte'),
    ('MOV', 0xC000, _ANY, _LOGICAL, 'The source is stored at the destination'),
    ('MOVB', 0xD000, _ANY, f'{_LOGICAL}, OP', 'The source, a byte, is stored at the destination'),
    ('SOC', 0xE000, _ANY, _LOGICAL, "The source's ones are set in the destination"),
    ('SOCB', 0xF000, _ANY, f'{_LOGICAL}, OP', "The source's ones are set in the destination, a byte"),
    ('COC', 0x2000, _FIRST, 'EQ', 'EQ becomes 1 if the register has ones wherever the source has ones'),
    ('CZC', 0x2400, _FIRST, 'EQ', 'EQ becomes 1 if the register has zeros wherever the source has ones'),
    ('XOR', 0x2800, _FIRST, _LOGICAL, 'The register gets the ones that one of both has alone'),
    ('XOP', 0x2C00, _NUMBER, 'X', 'WP and PC are loaded from >0040 plus four times the number; the old WP, PC and ST '
     "go to R13, R14 and R15 there, and the operand's address to R11"),
    ('LDCR', 0x3000, _NUMBER, _LOADED, 'Bits of the source go to the communication register unit, as many as the '
     f'number says, from the address in R12 on{_NOT_EXECUTED}'),
    ('STCR', 0x3400, _NUMBER, _LOADED, 'Bits of the communication register unit are stored, as many as the number '
     f'says, from the address in R12 on{_NOT_EXECUTED}'),
    ('MPY', 0x3800, _FIRST, '', 'The product of the register and the source is stored in the register and the word '
     'after it'),
    ('DIV', 0x3C00, _FIRST, 'OV', 'The two words at the register are divided by the source: the quotient goes to the '
     'first and the remainder to the second; OV becomes 1, and both stay, if the source is not above the first'),
    ('SRA', 0x0800, _COUNT, f'{_LOGICAL}, C', 'The register is shifted to the right and keeps its sign; if the count '
     'is 0, it is taken from R0'),
    ('SRL', 0x0900, _COUNT, f'{_LOGICAL}, C', 'The register is shifted to the right, and 0 comes in; if the count is '
     '0, it is taken from R0'),
    ('SLA', 0x0A00, _COUNT, f'{_LOGICAL}, C, OV', 'The register is shifted to the left; if the count is 0, it is taken '
     'from R0'),
    ('SRC', 0x0B00, _COUNT, f'{_LOGICAL}, C', 'The register is rotated to the right; if the count is 0, it is taken '
     'from R0'),
    ('BLWP', 0x0400, _ONE_ANY, '', 'WP and PC are loaded from the two words at the operand; the old WP, PC and ST go '
     'to R13, R14 and R15 there'),
    ('B', 0x0440, _ONE_ANY, '', "PC becomes the operand's address"),
    ('X', 0x0480, _ONE_ANY, 'as the operand sets them', f'The operand is executed as an instruction{_NOT_EXECUTED}'),
    ('CLR', 0x04C0, _ONE_ANY, '', 'The operand becomes 0'),
    ('NEG', 0x0500, _ONE_ANY, _SUM, 'The operand becomes its negative'),
    ('INV', 0x0540, _ONE_ANY, _LOGICAL, 'Each bit of the operand becomes the other one'),
    ('INC', 0x0580, _ONE_ANY, _SUM, '1 is added to the operand'),
    ('INCT', 0x05C0, _ONE_ANY, _SUM, '2 is added to the operand'),
    ('DEC', 0x0600, _ONE_ANY, _SUM, '1 is subtracted from the operand'),
    ('DECT', 0x0640, _ONE_ANY, _SUM, '2 is subtracted from the operand'),
    ('BL', 0x0680, _ONE_ANY, '', "R11 gets the address of the next instruction, and PC becomes the operand's address"),
    ('SWPB', 0x06C0, _ONE_ANY, '', 'The bytes of the operand are exchanged'),
    ('SETO', 0x0700, _ONE_ANY, '', 'The operand becomes >FFFF'),
    ('ABS', 0x0740, _ONE_ANY, _SUM, 'The operand becomes its value without the sign'),
    ('JMP', 0x1000, _TARGET, '', 'PC becomes the target'),
    ('JLT', 0x1100, _TARGET, '', 'PC becomes the target if A> and EQ are 0'),
    ('JLE', 0x1200, _TARGET, '', 'PC becomes the target if L> is 0 or EQ is 1'),
    ('JEQ', 0x1300, _TARGET, '', 'PC becomes the target if EQ is 1'),
    ('JHE', 0x1400, _TARGET, '', 'PC becomes the target if L> or EQ is 1'),
    ('JGT', 0x1500, _TARGET, '', 'PC becomes the target if A> is 1'),
    ('JNE', 0x1600, _TARGET, '', 'PC becomes the target if EQ is 0'),
    ('JNC', 0x1700, _TARGET, '', 'PC becomes the target if C is 0'),
    ('JOC', 0x1800, _TARGET, '', 'PC becomes the target if C is 1'),
    ('JNO', 0x1900, _TARGET, '', 'PC becomes the target if OV is 0'),
    ('JL', 0x1A00, _TARGET, '', 'PC becomes the target if L> and EQ are 0'),
    ('JH', 0x1B00, _TARGET, '', 'PC becomes the target if L> is 1 and EQ is 0'),
    ('JOP', 0x1C00, _TARGET, '', 'PC becomes the target if OP is 1'),
    ('SBO', 0x1D00, _BIT, '', 'A bit of the communication register unit becomes 1, at the displacement from R12'
     + _NOT_EXECUTED),
    ('SBZ', 0x1E00, _BIT, '', 'A bit of the communication register unit becomes 0, at the displacement from R12'
     + _NOT_EXECUTED),
    ('TB', 0x1F00, _BIT, 'EQ', 'EQ becomes a bit of the communication register unit, at the displacement from R12'
     + _NOT_EXECUTED),
    ('LI', 0x0200, _VALUE, _LOGICAL, 'The value is stored in the register'),
    ('AI', 0x0220, _VALUE, _SUM, 'The value is added to the register'),
    ('ANDI', 0x0240, _VALUE, _LOGICAL, 'The register keeps the ones that the value has too'),
    ('ORI', 0x0260, _VALUE, _LOGICAL, 'The register gets the ones of the value'),
    ('CI', 0x0280, _VALUE, _LOGICAL, 'The register is compared with the value'),
    ('STWP', 0x02A0, 'register', '', 'WP is stored in the register'),
    ('STST', 0x02C0, 'register', '', 'ST is stored in the register'),
    ('LWPI', 0x02E0, 'value', '', 'WP becomes the value'),
    ('LIMI', 0x0300, 'value', 'the interrupt mask', 'The interrupt mask is loaded from the value'),
    ('IDLE', 0x0340, 'none', '', f'The processor waits for an interrupt{_NOT_EXECUTED}'),
    ('RSET', 0x0360, 'none', 'the interrupt mask', f'The interrupt mask becomes 0, and external devices are reset'
     f'{_NOT_EXECUTED}'),
    ('RTWP', 0x0380, 'none', 'all', 'WP, PC and ST are loaded from R13, R14 and R15'),
    ('CKON', 0x03A0, 'none', '', f'An external device is asked to start a clock{_NOT_EXECUTED}'),
    ('CKOF', 0x03C0, 'none', '', f'An external device is asked to stop a clock{_NOT_EXECUTED}'),
    ('LREX', 0x03E0, 'none', '', f'An external device is asked to load or start a program{_NOT_EXECUTED}'),
    ('NOP', 0x1000, 'none', '', 'Nothing changes; it is JMP to the next instruction'),
    ('RT', 0x045B, 'none', '', 'PC becomes what R11 holds, as at the end of a subroutine; it is B *R11'),
)
_DIRECTIVES = (
    ('AORG', 'one expression', 'The location becomes that absolute place'),
    ('RORG', 'none or one', 'The location becomes that relocatable place, or the highest that was reached'),
    ('DORG', 'one expression', 'The location becomes that place, and nothing is placed from there on'),
    ('BSS', 'one expression', 'The location grows by it, and the label is the first place'),
    ('BES', 'one expression', 'The location grows by it, and the label is the place after it'),
    ('BYTE', 'one or more expressions', 'Bytes are placed'),
    ('DATA', 'one or more expressions', 'Words are placed'),
    ('TEXT', 'a quoted text', 'The characters of a text are placed'),
    ('EQU', 'one expression', 'The label gets the value'),
    ('EVEN', 'none', 'The location becomes even'),
    ('DEF', 'one or more names', 'Other modules may use the names'),
    ('REF', 'one or more names', 'The names have their values from other modules'),
    ('IDT', 'a quoted text', 'The module gets its name'),
    ('END', 'none or one', 'The source ends here, with the entry if it has one'),
    ('COPY', '"NAME"', 'The lines of the file stand in its place'),
    ('TITL', 'a quoted text', 'Nothing changes; it was for the title of a printed listing'),
    ('PAGE', 'none', 'Nothing changes; it was for a new page of a printed listing'),
    ('LIST', 'none', 'Nothing changes; it was to print the listing from here on'),
    ('UNL', 'none', 'Nothing changes; it was to print no listing from here on'),
)
_FORMS = (
    ('COPY', '"NAME"', 'The lines of the file stand in its place'),
    ('BIN', '"NAME"', 'The bytes of the file are placed'),
    ('MACRO', 'parameters', 'From here on the label stands for the lines up to ENDM'),
    ('ENDM', 'none', 'The lines of a macro end'),
    ('IF', 'one expression', 'The lines up to ELSE or ENDIF are read only if the value is not 0'),
    ('IFDEF', 'a name', 'The lines up to ELSE or ENDIF are read only if the name has a value'),
    ('ELSE', 'none', 'The lines up to ENDIF are read only if those before it are not'),
    ('ENDIF', 'none', 'The lines of IF or IFDEF end'),
    ('CELLS', 'first,last', 'A block of addresses begins, from which CELL takes'),
    ('CELL', 'size', 'The label gets the next address of the block, and as many bytes belong to it'),
)


def _by_name(*rows):
    return {it.name: it for found in rows for it in found}


_EXPANDED = tuple(Operation(*row, is_form=True) for row in _FORMS)
TABLE: typing.Dict[str, typing.Dict[str, Operation]] = {
    GPL: _by_name(_EXPANDED, _gpl()),
    ASSEMBLER: _by_name(_EXPANDED, (Operation(*row) for row in _DIRECTIVES), (
        Operation(name, operands, does, status, f'>{code:04X}') for name, code, operands, status, does in _TMS9900)),
}


def sentences(language):
    """The rows of a document's table, by name. A form of words, as DST, has the row of its form of bytes."""
    yield '| Name | Code | Status bits | What it does |'
    yield '|---|---|---|---|'
    table = TABLE[language]
    for it in sorted(table.values()):
        if it.code and not (it.name[0] == 'D' and it.name[1:] in table):
            yield f'| `{it.name}` | {it.code} | {it.status} | {it.does} |'
