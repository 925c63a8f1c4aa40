"""One space of addresses for all that a state has, so that a place is a number.

The memory of the processor is from 0 on, where the visible cells of GPL are >8300 to >83C1; the video memory is from
VIDEO on, the registers of the video processor are from REGISTERS on, and what the ports hold beside them is at LATCHES.
"""
import re

VIDEO, REGISTERS = 0x10000, 0x14000
CELLS, CELLS_END, PAD_END = 0x8300, 0x83C2, 0x8400
# the cells of GPL's own that hold the pointers of both stacks, and the status
DATA_STACK, RETURN_STACK, STATUS = 0x8372, 0x8373, 0x837C
# what a port holds: its place, and how many bytes; of VH the first says whether a byte is held
LATCHES = {'VA': (REGISTERS + 8, 2), 'VF': (REGISTERS + 10, 1), 'VH': (REGISTERS + 11, 2), 'GA': (REGISTERS + 13, 2),
           'GF': (REGISTERS + 15, 1), 'GH': (REGISTERS + 16, 1)}
END = REGISTERS + 17
BASES = {'V': VIDEO, 'W': REGISTERS, '>': 0}


def changes_of(part):
    """The changes that one part of a line shows, as `>8300=7F,FE*3`: of each its place, its bytes in hexadecimal, and
    how often they stand there one after the other."""
    place, _, values = part.partition('=')
    at = BASES[place[0]] + int(place.lstrip('VW>'), 16)
    found = []
    for value in values.split(','):
        byte, _, count = value.partition('*')
        times = int(count or 1)
        if times == 1 and found and found[-1][2] == 1:
            found[-1] = (found[-1][0], found[-1][1] + byte, 1)
        else:
            found.append((at, byte, times))
        at += times
    return found


def make(memory, changes):
    """Makes changes in a memory."""
    for at, digits, times in changes:
        data = bytes.fromhex(digits) * times
        memory[at:at + len(data)] = data


def differing(memory, changes):
    """What of changes a memory does not have yet; after it, it has all of them. A byte that is stored with the value
    that it had has not changed."""
    found = []
    for at, digits, times in changes:
        data = bytes.fromhex(digits) * times
        other = int.from_bytes(data, 'big') ^ int.from_bytes(memory[at:at + len(data)], 'big')
        for run in re.finditer(rb'[^\0]+', other.to_bytes(len(data), 'big')):
            begin, end = run.span()
            part = (digits[2 * begin:2 * end], 1) if times == 1 else (digits, end - begin)
            found.append((at + begin, *part))
        memory[at:at + len(data)] = data
    return found
