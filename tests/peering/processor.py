"""Random programs, instruction by instruction, by `ti_debug steps` and by MAME's processor."""
import re
import tempfile

from lib.command import Stopped
from lib.dump import memory
from peering import mame
from peering.known import of_step
from peering.cases import TRACE, listing, script_of
from peering.programs import DATA, Maker, object_source
from peering.result import Part

SCRIPT = script_of(TRACE)
OURS = re.compile(r' *\d+ >([0-9A-F]{4}) WP([0-9A-F]{4}) ST([0-9A-F]{4}) (\S+)')
THEIRS = re.compile(r'([0-9A-F]{4}) ([0-9A-F]{4}) ([0-9A-F]{4}) [0-9A-F]{4}: (\S+)')
# so many instructions are more than any program makes
MOST = 10_000


def ours(bench, debug, made):
    """The lines of a program by `steps`, and its data in the end."""
    module = bench.run('asm', given=object_source(made))
    if module.status:
        raise Stopped(f'asm: {module.fault}')
    run = debug.run('steps', str(MOST), given=module.out)
    lines = run.out.decode().splitlines()
    steps = [row.groups() for row in map(OURS.match, lines) if row]
    pad = memory(lines[lines.index('pad') + 1:lines.index('vdp')], 'pad')
    high = memory(lines[lines.index('high') + 1:], 'high')
    data = DATA[1].start - 0xA000
    return steps, pad[:0x80], high[data:data + len(DATA[1])]


def theirs(folder, number):
    """The same by MAME."""
    with open(f'{folder}/{number}.trace', encoding='latin-1') as text:
        steps = [row.groups() for row in map(THEIRS.match, text) if row]
    with open(f'{folder}/{number}.pad', 'rb') as pad, open(f'{folder}/{number}.high', 'rb') as high:
        return steps, pad.read(), high.read()


def since(steps, at):
    """The steps from the first one at an address on."""
    return steps[next((number for number, step in enumerate(steps) if step[0] == f'{at:04X}'), len(steps)):]


def compare(part, made, our, their):
    """Compares the runs of a program, after the instructions that set all registers and status bits."""
    mine, others, last = since(our[0], made.begin), since(their[0], made.begin), None
    for number, (here, there) in enumerate(zip(mine, others), 1):
        same = here[:3] == there[:3]
        reason = None if same or not last else of_step(last, here, there)
        part.add(same, lambda: f'{number}: {" ".join(here)}; MAME: {" ".join(there)}, after {" ".join(last)}', reason)
        if not same:
            return
        last = here
    if len(mine) != len(others):
        part.add(False, lambda: f'{len(mine)} instructions; MAME: {len(others)}')
    part.add(our[1:] == their[1:], lambda: f'the data differ: {our[1].hex()} {our[2].hex()}; MAME: {their[1].hex()} '
             f'{their[2].hex()}')


def compared(bench, debug, count, length, seed, folder=None):
    """Compares so many programs of so many operations."""
    part = Part(f'instructions of {count:,} random programs')
    made = [Maker(f'{seed} {number}').made(length) for number in range(count)]
    with tempfile.TemporaryDirectory(dir=folder) as place:
        with open(f'{place}/programs', 'w', encoding='ascii') as text:
            text.writelines(listing(one.words) for one in made)
        mame.run(place, mame.rom_of(bench), SCRIPT)
        for number, program in enumerate(made, 1):
            compare(part, program, ours(bench, debug, program), theirs(place, number))
    return part
