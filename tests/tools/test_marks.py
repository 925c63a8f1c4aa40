"""Tests of what a page of tools/steps marks as changed: for each step of programs of both kinds, the places that differ
between the state before it and the state after it, which the program shows in two reports."""
import unittest

from calling import TOP, Calling
from lib import program
from lib.dump import dump, expansion
from test_steps import CELLS, REGISTERS, VIDEO, data_of

LOW, HIGH = 0x2000, 0xA000
# adds words in a register, which has another high byte in few steps, and stores its sum where it is
SUMS = b"""START  LI   R1,WORDS
       LI   R2,5
       CLR  R3
LOOP   A    *R1+,R3
       MOV  R3,@>8340
       DEC  R2
       JNE  LOOP
       JMP  $
WORDS  DATA 1,0,>0100,>00FF,>FF00
       END  START
"""
# goes to other workspaces and back: one is that of the caller two registers on, so that their registers are the same
# bytes
SPACES = b"""START  LI   R1,>1234
       LI   R3,>1234
       BLWP @SUB
       LWPI >8320
       LI   R1,0
       MOV  R1,R2
       LWPI >A100
       INC  R0
       STST R5
       JMP  $
SUB    DATA >83E4,ENTRY
ENTRY  INC  R0
       MOV  R1,R2
       RTWP
       END  START
"""
# writes twice what is there, byte by byte through the port of the video processor, and reads GROM
PORTS = b"""START  LI   R1,>4000
       MOVB R1,@>8C02
       SWPB R1
       MOVB R1,@>8C02
       SWPB R1
       LI   R2,>2020
       MOVB R2,@>8C00
       MOVB R2,@>8C00
       LI   R1,>E081
       MOVB R1,@>8C02
       SWPB R1
       MOVB R1,@>8C02
       MOVB R2,@>9C02
       MOVB R2,@>9C02
       MOVB @>9800,R4
       MOVB R4,@>8300
       MOVB R2,@>2000
       MOVB R2,@>B000
       JMP  $
       END  START
"""
# stores that change one byte of two, none, or the same byte again
STORES = b"""START  DST  @>8300,>0102
       DST  @>8300,>0103
       DINC @>8300
       ST   @>8301,4
       ALL  >20
       ST   V@>0010,>21
       ALL  >20
       MOVE 4,@>8300,@>8301
       DST  @>8310,@>8300
       EXIT
       END  START
"""
SOURCES = ['calls', 'mean', 'picture', 'registers', 'first_steps']
OBJECTS = ['instructions', 'joined_objects']


def example(name):
    return (TOP / 'examples' / name / 'input').read_bytes()


def marked(changes):
    """The places that changes cover."""
    return {at + offset for at, digits, *times in changes
            for offset in range(len(digits) // 2 * (times[0] if times else 1))}


def differing(before, after):
    return {at for at in after if before[at] != after[at]}


def bytes_from(first, data):
    return dict(enumerate(data, first))


class Marks(Calling):
    def setUp(self):
        super().setUp()
        self.bench = program.program()
        self.debugger = program.Program(program.other(self.bench.path, 'ti_debug'))

    def of_source(self, source, number):
        """All places of a GPL program, and their bytes after so many steps."""
        shown = dump(self.bench.run('run', str(number), given=source).out.decode('latin-1'))
        return {**bytes_from(CELLS, shown.pad[:0xC2]), **bytes_from(VIDEO, shown.vdp),
                **bytes_from(REGISTERS, shown.registers)}

    def of_objects(self, objects, number):
        """The same of a program of the processor; what the ports hold is not shown, but the address of GROM."""
        report = self.debugger.run('steps', str(number), given=objects).out.decode('latin-1')
        shown, (low, high) = dump(report), expansion(report)
        return {**bytes_from(CELLS, shown.pad), **bytes_from(VIDEO, shown.vdp), **bytes_from(LOW, low),
                **bytes_from(HIGH, high), **bytes_from(REGISTERS, shown.registers)}

    def assert_marks(self, data, state):
        before, steps = state(0), data['steps']
        self.assertTrue(steps)
        for number, (_, _, *rest) in enumerate(steps, 1):
            after = state(number)
            found = {place for place in marked(it for it in rest if isinstance(it, list)) if place in after}
            self.assertEqual(found, differing(before, after), f'step {number}')
            before = after

    def test_of_a_gpl_program_they_are_what_differs_between_two_runs(self):
        for source in [STORES, *map(example, SOURCES)]:
            self.file('a.gpl', source)
            data = data_of(self.call('steps', 'a.gpl', '40').stdout)
            self.assert_marks(data, lambda number: self.of_source(source, number))

    def test_of_machine_code_they_are_what_differs_between_two_runs(self):
        assembled = [self.bench.run('asm', given=source).out for source in (SUMS, SPACES, PORTS)]
        for objects in [*assembled, *map(example, OBJECTS)]:
            self.file('a.obj', objects)
            data = data_of(self.call('steps', '--exec', 'a.obj', '25').stdout)
            self.assert_marks(data, lambda number: self.of_objects(objects, number))

    def test_a_byte_that_is_stored_with_its_value_is_no_change(self):
        self.file('a.obj', self.bench.run('asm', given=SUMS).out)
        steps = data_of(self.call('steps', '--exec', 'a.obj', '25').stdout)['steps']
        # R3 of the workspace at >83E0: 1, 1, >0101, >0200, >0100
        sums = [changes for _, text, _, _, *changes in steps if any(at in (0x83E6, 0x83E7) for at, *_ in changes)]
        self.assertEqual([[it for it in changes if it[0] in (0x83E6, 0x83E7)] for changes in sums],
                         [[[0x83E7, '01']], [[0x83E6, '01']], [[0x83E6, '0200']], [[0x83E6, '01']]])


if __name__ == '__main__':
    unittest.main()
