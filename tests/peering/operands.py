"""Operations on all operands of a kind, as sums of results and status bits: by `exec`, and by MAME's processor."""
import tempfile

from lib.command import Stopped
from lib.dump import dump, words as listed
from peering import mame
from peering.cases import listing, script_of
from peering.programs import END, ONE, SHIFT
from peering.result import Part

BYTES = ('AB', 'SB', 'CB', 'SOCB', 'SZCB', 'MOVB')
# each of the sixteen parts of the numbers has a sum, a word at >8340 and after it
SUMS, PARTS = 0x8340, 16
SOURCE = """       AORG >A000
START  LIMI 0
       LWPI >8300
       LI   R5,>{sums:04X}
       CLR  R8
       AI   R8,0
       MOVB R8,R8
       LI   R0,{count}
       CLR  R1
PART   CLR  R3
NEXT   MOV  R1,R2
       MOV  R1,R7
       SWPB R7
       {operation}
       STST R4
       XOR  R2,R3
       XOR  R4,R3
       SRC  R3,3
       AI   R1,{step}
       MOV  R1,R6
       ANDI R6,>0FFF
       CI   R6,{step}
       JHE  NEXT
       MOV  R3,*R5+
       CI   R5,>{last:04X}
       JNE  PART
       B    @>{end:04X}
       END  START
"""


def operations():
    """Each operation with its operands, and the count in register 0: on a register's word, on pairs of bytes, and shifts
    by some counts."""
    yield from ((f'{name:4} R2', 0) for name in ONE)
    yield from ((f'{name:4} R7,R2', 0) for name in BYTES)
    yield from ((f'{name:4} R2,{count}', 0) for name in SHIFT for count in (1, 4, 15))
    yield from ((f'{name:4} R2,0', count) for name in SHIFT for count in (0, 9))


def compared(bench, step, folder=None):
    """Compares the sums of all operations over each number that is a multiple of a step."""
    part = Part(f'sums of {PARTS} parts of the operands of {len(list(operations()))} operations')
    programs = []
    for operation, count in operations():
        source = SOURCE.format(operation=operation, count=count, step=step, sums=SUMS, last=SUMS + 2 * PARTS, end=END)
        module = bench.run('asm', given=source.encode())
        if module.status:
            raise Stopped(f'asm: {operation}: {module.fault}')
        programs.append((operation, module.out))
    with tempfile.TemporaryDirectory(dir=folder) as place:
        with open(f'{place}/programs', 'w', encoding='ascii') as text:
            for _, module in programs:
                text.write(listing({**listed(bench.run('link', given=module).out.decode()), END: 0x10FF}))
        mame.run(place, mame.rom_of(bench), script_of())
        for number, (operation, module) in enumerate(programs, 1):
            ours = dump(bench.run('exec', '10000000', given=module).out.decode()).pad[SUMS - 0x8300:][:2 * PARTS]
            with open(f'{place}/{number}.pad', 'rb') as pad:
                theirs = pad.read()[SUMS - 0x8300:][:2 * PARTS]
            for at in range(0, 2 * PARTS, 2):
                part.add(ours[at:at + 2] == theirs[at:at + 2], lambda: f'{operation} of >{at // 2:X}000 and after it: '
                         f'{ours[at:at + 2].hex()}; MAME: {theirs[at:at + 2].hex()}')
    return part
