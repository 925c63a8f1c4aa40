"""The listing of words as assembler source, by the instruction table of the TMS 9900 data manual: an instruction where
a whole one stands, and else DATA, and BYTE for a last odd byte."""
import functools

import tms_table


def general(field, more):
    """A general operand by its six bits; a symbolic or indexed one takes its word from those that follow."""
    mode, register = field >> 4, field & 15
    if mode == 2:
        return f'@>{next(more):04X}' + (f'(R{register})' if register else '')
    return ('R{}', '*R{}', '', '*R{}+')[mode].format(register)


def signed(byte):
    return (byte ^ 0x80) - 0x80


def operands(row, word, more, place):
    """The operands of an instruction as they are written."""
    if row.form == 'Two':
        return [general(word & 0x3F, more), general(word >> 6 & 0x3F, more)]
    if row.form == 'Reg':
        second = word >> 6 & 15
        return [general(word & 0x3F, more), f'{second}' if row.name in tms_table.COUNT_ROWS else f'R{second}']
    if row.form == 'Shift':
        return [f'R{word & 15}', f'{word >> 4 & 15}']
    if row.form == 'One':
        return [general(word & 0x3F, more)]
    if row.form == 'Jump':
        distance = signed(word & 0xFF)
        return [f'{distance}' if row.name in tms_table.BIT_ROWS else f'>{place + 2 + 2 * distance & 0xFFFF:04X}']
    found = [f'R{word & 15}'] if row.form == 'Imm' else []
    return found + [f'>{value:04X}' for value in more]


@functools.lru_cache(1 << 17)
def line_of(words, place):
    """The line of an instruction with its words."""
    row = tms_table.row_of(words[0])
    found = ','.join(operands(row, words[0], iter(words[1:]), place))
    return f'       {row.name} {found}' if found else f'       {row.name}'


def listing(data, address):
    """The listing of bytes from an address on."""
    words = [data[at] << 8 | data[at + 1] for at in range(0, len(data) - 1, 2)]
    found = [f'       AORG >{address:04X}']
    at = 0
    while at < len(words):
        row = tms_table.row_of(words[at])
        count = 1 + tms_table.following(row, words[at]) if row else 0
        if row and at + count <= len(words):
            found.append(line_of(tuple(words[at:at + count]), address + 2 * at))
            at += count
        else:
            found.append(f'       DATA >{words[at]:04X}')
            at += 1
    if len(data) % 2:
        found.append(f'       BYTE >{data[-1]:02X}')
    found += ['       END', '']
    return '\n'.join(found).encode()
