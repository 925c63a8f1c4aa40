"""The source that 'demo' makes from a number, and its summary, by the profile."""
import re

from gpl_step import EXIT

BLOCKS = 500
STEPS = 100_000
COUNT = re.compile(rb'count ([1-9][0-9]*)\n\Z')


def after(number):
    """The next number of the series that the blocks are made of."""
    return (number * 25173 + 13849) & 0xFFFF


def block(index, number):
    """A block's line, of the number's parts: a cell, a byte and a VDP address."""
    cell, byte, address = number % 64, number // 256, number % 16384
    return (f'ADD @>83{cell:02X},>{byte:02X}', f'DST V@>{address:04X},@>83{cell:02X}',
            f'MOVE >00{byte:02X},V@>{address:04X},G@>6000', 'CALL SUB')[index % 4]


def source(blocks):
    lines = []
    number = after(blocks)
    for index in range(blocks):
        lines.append(f' {block(index, number)}')
        number = after(number)
    return '\n'.join(lines + [' EXIT', 'SUB XOR @>8340,>5A', ' RTN', ' END >6000', ''])


def summary(blocks, image, run):
    """The summary but for the count of instructions."""
    end = 'limit' if run.stop is None else 'exit' if run.stop == EXIT else f'stop {run.stop}'
    console = run.console
    return (f'demo {blocks}\nimage {len(image)}\nsteps {run.steps}\npad {sum(console.cells)}\nvdp {sum(console.vdp)}\n'
            f'{end}\n').encode()


def comparable(out, run):
    """A summary without the count of instructions, if that is within its bound."""
    count = COUNT.search(out)
    return out[:count.start()] if count and int(count.group(1)) <= run.instructions else out
