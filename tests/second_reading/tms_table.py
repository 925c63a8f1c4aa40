"""The instruction table of the TMS 9900 data manual: each instruction's form and code, and which one a word is."""
import typing

# a form's mask: the bits of a word that are the code; the strict ones of Imm and Bare are a choice of the profile
MASKS = {'Two': 0xF000, 'Reg': 0xFC00, 'Shift': 0xFF00, 'One': 0xFFC0, 'Jump': 0xFF00, 'Imm': 0xFFF0, 'Bare': 0xFFFF}

CODES = {
    'Two': {'SZC': 0x4000, 'SZCB': 0x5000, 'S': 0x6000, 'SB': 0x7000, 'C': 0x8000, 'CB': 0x9000, 'A': 0xA000,
            'AB': 0xB000, 'MOV': 0xC000, 'MOVB': 0xD000, 'SOC': 0xE000, 'SOCB': 0xF000},
    'Reg': {'COC': 0x2000, 'CZC': 0x2400, 'XOR': 0x2800, 'XOP': 0x2C00, 'LDCR': 0x3000, 'STCR': 0x3400,
            'MPY': 0x3800, 'DIV': 0x3C00},
    'Shift': {'SRA': 0x0800, 'SRL': 0x0900, 'SLA': 0x0A00, 'SRC': 0x0B00},
    'One': {'BLWP': 0x0400, 'B': 0x0440, 'X': 0x0480, 'CLR': 0x04C0, 'NEG': 0x0500, 'INV': 0x0540, 'INC': 0x0580,
            'INCT': 0x05C0, 'DEC': 0x0600, 'DECT': 0x0640, 'BL': 0x0680, 'SWPB': 0x06C0, 'SETO': 0x0700,
            'ABS': 0x0740},
    'Jump': {'JMP': 0x1000, 'JLT': 0x1100, 'JLE': 0x1200, 'JEQ': 0x1300, 'JHE': 0x1400, 'JGT': 0x1500, 'JNE': 0x1600,
             'JNC': 0x1700, 'JOC': 0x1800, 'JNO': 0x1900, 'JL': 0x1A00, 'JH': 0x1B00, 'JOP': 0x1C00, 'SBO': 0x1D00,
             'SBZ': 0x1E00, 'TB': 0x1F00},
    'Imm': {'LI': 0x0200, 'AI': 0x0220, 'ANDI': 0x0240, 'ORI': 0x0260, 'CI': 0x0280, 'STWP': 0x02A0, 'STST': 0x02C0},
    'Bare': {'LWPI': 0x02E0, 'LIMI': 0x0300, 'IDLE': 0x0340, 'RSET': 0x0360, 'RTWP': 0x0380, 'CKON': 0x03A0,
             'CKOF': 0x03C0, 'LREX': 0x03E0},
}

Row = typing.NamedTuple('Row', [('name', str), ('form', str), ('code', int)])

ROWS = {name: Row(name, form, code) for form, codes in CODES.items() for name, code in codes.items()}
BY_CODE = {(MASKS[row.form], row.code): row for row in ROWS.values()}

# the profile does not execute these: external devices, the communication register unit, and X
STOPPING = {'X', 'LDCR', 'STCR', 'SBO', 'SBZ', 'TB', 'IDLE', 'RSET', 'CKON', 'CKOF', 'LREX'}
# communication register unit instructions of one displacement: in the codes of jumps, but no jumps
BIT_ROWS = {'SBO', 'SBZ', 'TB'}
# the second operand of these is a number, and no register
COUNT_ROWS = {'XOP', 'LDCR', 'STCR'}
STORE_ROWS = {'STWP', 'STST'}
WORD_ROWS = {'LWPI', 'LIMI'}

DISTINCT_MASKS = sorted(set(MASKS.values()))


def row_of(word):
    """The instruction that a word is, or None."""
    for mask in DISTINCT_MASKS:
        row = BY_CODE.get((mask, word & mask))
        if row:
            return row
    return None


def following(row, word):
    """How many words follow the instruction word: one for each symbolic or indexed operand, and an immediate one."""
    source_symbolic = word & 0x30 == 0x20
    if row.form == 'Two':
        return source_symbolic + (word & 0xC00 == 0x800)
    if row.form in ('Reg', 'One'):
        return int(source_symbolic)
    if row.form == 'Imm':
        return int(row.name not in STORE_ROWS)
    return int(row.name in WORD_ROWS)
