"""An assembler of the few forms that the interpreter's listing has. What it says is checked by proofs elsewhere."""
import re

TWO = {'SZC': 0x4000, 'SZCB': 0x5000, 'S': 0x6000, 'SB': 0x7000, 'C': 0x8000, 'CB': 0x9000, 'A': 0xA000, 'AB': 0xB000,
       'MOV': 0xC000, 'MOVB': 0xD000, 'SOC': 0xE000, 'SOCB': 0xF000}
TO_REGISTER = {'COC': 0x2000, 'CZC': 0x2400, 'XOR': 0x2800, 'MPY': 0x3800, 'DIV': 0x3C00}
ONE = {'BLWP': 0x0400, 'B': 0x0440, 'X': 0x0480, 'CLR': 0x04C0, 'NEG': 0x0500, 'INV': 0x0540, 'INC': 0x0580,
       'INCT': 0x05C0, 'DEC': 0x0600, 'DECT': 0x0640, 'BL': 0x0680, 'SWPB': 0x06C0, 'SETO': 0x0700, 'ABS': 0x0740}
SHIFT = {'SRA': 0x0800, 'SRL': 0x0900, 'SLA': 0x0A00, 'SRC': 0x0B00}
IMMEDIATE = {'LI': 0x0200, 'AI': 0x0220, 'ANDI': 0x0240, 'ORI': 0x0260, 'CI': 0x0280}
JUMP = {'JMP': 0x1000, 'JLT': 0x1100, 'JLE': 0x1200, 'JEQ': 0x1300, 'JHE': 0x1400, 'JGT': 0x1500, 'JNE': 0x1600,
        'JNC': 0x1700, 'JOC': 0x1800, 'JNO': 0x1900, 'JL': 0x1A00, 'JH': 0x1B00, 'JOP': 0x1C00}


class Line:
    """A line of the source: its text, its place, its words, and for a statement its label and operation."""

    def __init__(self, text, part):
        self.text, self.part, self.place, self.words = text, part, 0, []
        comment = text.startswith('*')
        self.label = '' if comment else text[:7].split(' ')[0]
        self.operation, _, self.operand = ('', '', '') if comment else text[7:].partition(' ')
        self.operands = self.operand.split(',') if self.operand else []


def number(text):
    if text.startswith('>'):
        return int(text[1:], 16)
    return int(text) if re.fullmatch(r'\d+', text) else None


def value(text, names):
    """The value of an expression with one operator at most."""
    found = re.fullmatch(r'(>?\w+)(?:([+-])(>?\w+))?', text)
    numbers = (None if it is None else number(it) for it in found.group(1, 3))
    first, second = (names.get(it) if at is None else at for it, at in zip(found.group(1, 3), numbers))
    if second is None:
        return first & 0xFFFF
    return (first + second if found.group(2) == '+' else first - second) & 0xFFFF


def general(text, names):
    """The mode and register of a general operand, and the word behind it."""
    if re.fullmatch(r'R\d+', text):
        return int(text[1:]), []
    if re.fullmatch(r'\*R\d+\+?', text):
        return (0x30 if text.endswith('+') else 0x10) + int(text.strip('*R+')), []
    found = re.fullmatch(r'@([^()]+)(?:\(R(\d+)\))?', text)
    return 0x20 + int(found.group(2) or 0), [value(found.group(1), names)]


def words_of(line, names):
    op, operands = line.operation, line.operands
    if op == 'DATA':
        return [value(it, names) for it in operands]
    if op in TWO:
        (source, behind), (target, last) = general(operands[0], names), general(operands[1], names)
        return [TWO[op] + (target << 6) + source] + behind + last
    if op in TO_REGISTER:
        source, behind = general(operands[0], names)
        return [TO_REGISTER[op] + (int(operands[1][1:]) << 6) + source] + behind
    if op in ONE:
        source, behind = general(operands[0], names)
        return [ONE[op] + source] + behind
    if op in SHIFT:
        return [SHIFT[op] + (value(operands[1], names) << 4) + int(operands[0][1:])]
    if op in IMMEDIATE:
        return [IMMEDIATE[op] + int(operands[0][1:]), value(operands[1], names)]
    if op == 'STST':
        return [0x02C0 + int(operands[0][1:])]
    if op in JUMP:
        away = (value(operands[0], names) - line.place - 2) // 2
        if not -128 <= away <= 127:
            raise SystemExit(f'tools/interpreter: jump too far: {line.text}')
        return [JUMP[op] + (away & 0xFF)]
    if op == 'NOP':
        return [0x1000]
    return []


def size_of(line):
    op, operands = line.operation, line.operands
    if op in ('', 'EQU', 'AORG', 'END'):
        return 0
    if op == 'DATA':
        return len(operands)
    if op in IMMEDIATE:
        return 2
    if op not in {**TWO, **TO_REGISTER, **ONE, **SHIFT, **JUMP, 'STST': 0, 'NOP': 0}:
        raise SystemExit(f'tools/interpreter: operation unknown: {line.text}')
    return 1 + sum(it.startswith('@') for it in operands)


def assembled(lines):
    """Gives the lines their places and words; the names with their values, in the order of their lines."""
    names, place = {}, 0
    for line in lines:
        line.place = place
        if line.operation == 'AORG':
            place = value(line.operand, names)
        if line.label:
            names[line.label] = value(line.operand, names) if line.operation == 'EQU' else place
        place += 2 * size_of(line)
    for line in lines:
        line.words = words_of(line, names)
    return names
