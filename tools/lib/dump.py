"""What a report of ti_bench shows of the console: the dump that `run`, `trace`, `watch` and `exec` write last, and the
words that `link` and `interp` list."""
import re

from lib.command import Stopped

ROW = re.compile(r'>([0-9A-F]{4})((?: [0-9A-F]{2}){16})')
REGISTERS = 'regs(?: [0-9A-F]{2}){8}'
WORDS = re.compile(r'>([0-9A-F]{4})((?: [0-9A-F]{4}){1,8})')
HEAD = re.compile(r'entry >[0-9A-F]{4}|[A-Z][0-9A-Z]{0,5} >[0-9A-F]{4}')
SIZES = {'pad': 256, 'vdp': 16384, 'low': 8192, 'high': 24576}
ORIGINS = {'pad': 0x8300, 'vdp': 0, 'low': 0x2000, 'high': 0xA000}


class Dump:
    """The scratchpad from >8300 on, the video memory and the registers of the video processor, as bytes."""

    def __init__(self, pad, vdp, registers):
        self.pad, self.vdp, self.registers = pad, vdp, registers


def memory(rows, part):
    """The bytes of a part of the dump. A row `*` means rows like the one before, up to the address of the next row or
    to the end of the part."""
    held, last = bytearray(), b''
    for row in rows:
        shown = ROW.fullmatch(row)
        if shown:
            gap = int(shown[1], 16) - ORIGINS[part] - len(held)
            held += last * (gap // 16)
            last = bytes.fromhex(shown[2])
            held += last
    return bytes(held + last * ((SIZES[part] - len(held)) // 16))


def last_of(pattern, lines, end):
    """The number of the last line of a form that stands before line `end`, -1 if there is none."""
    return next((number for number in reversed(range(end)) if re.fullmatch(pattern, lines[number])), -1)


def dump(text):
    """The last dump of a report, or None if it has none."""
    lines = text.splitlines()
    end = last_of(REGISTERS, lines, len(lines))
    middle = last_of('vdp', lines, end)
    begin = last_of('pad', lines, middle)
    if begin < 0:
        return None
    pad, video = memory(lines[begin + 1:middle], 'pad'), memory(lines[middle + 1:end], 'vdp')
    if (len(pad), len(video)) != (SIZES['pad'], SIZES['vdp']):
        return None
    return Dump(pad, video, bytes.fromhex(lines[end].partition(' ')[2]))


def expansion(text):
    """The low and the high expansion memory that a report of `steps` shows at its end, or None if it shows none."""
    lines = text.splitlines()
    high = last_of('high', lines, len(lines))
    low = last_of('low', lines, high)
    if low < 0:
        return None
    return memory(lines[low + 1:high], 'low'), memory(lines[high + 1:], 'high')


def words(text):
    """The words that a report of linked memory lists, by their addresses. Each other line is the entry or a name; the
    rows are in order, and one that is followed at once by the next has eight words."""
    found, after, is_full = {}, 0, True
    for line in text.splitlines():
        row = WORDS.fullmatch(line)
        if row:
            at, listed = int(row[1], 16), row[2].split()
            if at < after or (at == after and not is_full):
                raise Stopped(f'the rows of a listing do not follow one another: {line}')
            found.update((at + 2 * number, int(word, 16)) for number, word in enumerate(listed))
            after, is_full = at + 2 * len(listed), len(listed) == 8
        elif found or not HEAD.fullmatch(line):
            raise Stopped(f'no line of a listing of link: {line}')
    return found
