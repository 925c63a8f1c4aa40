"""A labelled source can be edited: an instruction is inserted at each place, and the program runs as before."""
import concurrent.futures
import random
import re
import unittest

import label_programs
import label_takers
from calling import TOP
from labelling import traced
from labelling.label import Wishes, labelled
from labelling.takes import takes
from lib import program

ADDED = {'gdis': b'       ST   @>83C0,>55', 'dis': b'       NOP', 'link': b'       NOP'}
INSTRUCTION = re.compile(rb'\S* +(?!BYTE|DATA|TEXT|EQU)[A-Z]+ .*\* >[0-9A-F]{4}(?! case)')
MOST = 60            # places that are tried in one program

MACHINE = b"""\
       AORG >A000
START  LI   R1,TABLE
       MOV  @COUNT,R2
       BL   @SUM
       MOV  R3,@>8300
       BL   @TAKES
       DATA >1234,>5678
       BL   @COPIES
       DATA 7
       BLWP @OTHER
       DATA 9
       MOV  @JUMPS,R4
       B    *R4
SUM    CLR  R3
MORE   A    *R1+,R3
       DEC  R2
       JNE  MORE
       RT
TAKES  MOV  *R11+,@>8302
       MOV  *R11+,@>8304
       RT
COPIES MOV  R11,R10
       BL   @SUM2
       MOV  *R10+,@>8306
       B    *R10
SUM2   INC  R9
       RT
LAST   SETO @>8310
       JMP  $
OTHER  DATA >8320,ENTRY
ENTRY  MOV  *R14+,@>8308
       RTWP
JUMPS  DATA LAST
COUNT  DATA 4
TABLE  DATA 10,20,30,40
       END  START
"""


def outcome(found, lister, source):
    """How a run of a source ended: its first line without the address, cells, and in GPL the video memory."""
    if lister == 'gdis':
        run = found.run('run', '20000', given=source)
    else:
        run = found.run('exec', '20000', given=found.run('asm', given=source).out)
    lines = run.out.decode('ascii').splitlines()
    if run.status or not lines:
        return run.status, run.fault, lines[:1]
    pad, last = {}, ''
    video = lines.index('vdp')
    for line in lines[lines.index('pad') + 1:video]:
        at, last = (max(pad) + 16, last) if line == '*' else (int(line[1:5], 16), line[6:])
        pad[at] = last
    cells = [pad.get(at, 'as before') for at in range(0x8300, 0x8370 if lister == 'gdis' else 0x8320, 16)]
    return lines[0].partition(' at ')[0], cells, [line for line in lines[video:] if re.match('>|regs', line)]


class Edits(unittest.TestCase):
    def setUp(self):
        self.program = program.program()

    def image(self, source):
        return self.program.run('gasm', given=source).out

    def edited(self, lister, at, data, wishes, least, drop=()):
        """Inserts an instruction at each place of the labelled source, from which the lines of `drop` are then dropped.
        """
        made = labelled(self.program, lister, at, data, wishes)
        lines = made.text.splitlines()
        wanted = outcome(self.program, lister, made.text)
        self.assertIn(wanted[0], ('exit', 'end self jump'))
        places = [i for i, line in enumerate(lines) if INSTRUCTION.match(line)]
        self.assertGreaterEqual(len(places), least, made.text)
        places = sorted(random.Random(1).sample(places, min(len(places), MOST)))

        def tried(i):
            source = [*lines[:i], ADDED[lister], *lines[i:]]
            return outcome(self.program, lister, b'\n'.join([line for line in source if line not in drop] + [b'']))

        with concurrent.futures.ThreadPoolExecutor(2) as pool:
            bad = [lines[i] for i, came in zip(places, pool.map(tried, places)) if came != wanted]
        self.assertEqual(bad, [])
        return made

    def example(self, name, least):
        self.edited('gdis', 0x6000, self.image((TOP / f'examples/{name}/input').read_bytes()), Wishes(), least)

    def test_a_cartridge(self):
        self.example('cartridge', 17)

    def test_a_picture(self):
        self.example('picture', 9)

    def test_a_program_with_a_byte_after_a_call_and_a_table_of_branches(self):
        self.example('calls', 14)

    def test_a_generated_program_of_three_groms(self):
        image = self.image(label_programs.program(62, 90, 3))
        made = self.edited('gdis', 0x6000, image, Wishes(), MOST)
        self.assertEqual(made.doubts, [])

    def test_a_program_in_a_grom_that_is_filled(self):
        image = self.image((TOP / 'examples/cartridge/input').read_bytes())
        self.edited('gdis', 0x6000, image + bytes(0x2000 - len(image)), Wishes(), 17)
        filled = image + b'\xFF' * (0x2000 - len(image))
        lines = labelled(self.program, 'gdis', 0x6000, filled, Wishes()).text.splitlines()
        first = next(i for i, line in enumerate(lines) if line.startswith(b'* >FF up to'))
        self.edited('gdis', 0x6000, filled, Wishes(), 17, drop=lines[first + 2:first + 3])

    def test_machine_code_with_words_after_calls(self):
        linked = self.program.run('link', given=self.program.run('asm', given=MACHINE).out).out.decode('ascii')
        data = bytes.fromhex(''.join(re.findall('^>....(.*)$', linked, re.MULTILINE)))
        jumps = 0xA000 + len(data) - 12
        wishes = Wishes(entries=[0xA000], tables=[(jumps, jumps + 2)], pointers=[(0xA000, 0xA004)])
        self.edited('dis', 0xA000, data, wishes, 27)

    def test_a_relocatable_object(self):
        text = self.program.run('asm', given=MACHINE.replace(b'       AORG >A000\n', b'')).out
        made = self.edited('link', None, text, Wishes(), 25)
        self.assertIn(b'RORG >0000', made.text)
        self.assertEqual(self.program.run('asm', given=made.text).out.count(b'C'), text.count(b'C'))

    def test_modules_that_are_joined(self):
        self.edited('link', None, (TOP / 'examples/joined_objects/input').read_bytes(), Wishes(), 8)


class Takers(Edits):
    """Subroutines that take bytes in other ways. What an edit would destroy is warned of; if an option or a run says
    what they take, nothing is destroyed and there is no warning."""

    def setUp(self):
        super().setUp()
        self.sources = set()

    def wishes(self, source, said):
        run = traced.steps(self.program.run('trace', '500', given=source).out.decode('ascii'))
        listed = self.program.run('gasm', given=source).out
        covered = Wishes(covered=traced.executed(run), returns=traced.returns(run))
        places = {name: self.place(source, name) for name in said}
        named = Wishes(takes=dict(takes(f'{places[name]:04X}={word}') for name, word in said.items()))
        return listed, covered, named

    def place(self, source, name):
        """Where a label is."""
        made = self.program.run('gasm', given=source.replace(b'       END', f'       DATA {name}\n       END'.encode()))
        return int.from_bytes(made.out[-2:], 'big')

    def edited_surely(self, image, wishes, least):
        """The same without a doubt of what a call takes. One source is tried once."""
        made = labelled(self.program, 'gdis', 0x6000, image, wishes)
        self.assertEqual([line for line in made.doubts if 'how many bytes' in line], [])
        if made.text not in self.sources:
            self.sources.add(made.text)
            self.edited('gdis', 0x6000, image, wishes, least)

    def test_each_way(self):
        for name, taker in label_takers.TAKERS.items():
            with self.subTest(name):
                image, covered, named = self.wishes(label_takers.source(taker), taker.takes)
                made = labelled(self.program, 'gdis', 0x6000, image, Wishes())
                self.assertEqual(any('how many bytes' in line for line in made.doubts), not taker.is_sure, made.doubts)
                if taker.is_sure:
                    self.edited_surely(image, Wishes(), 8)
                if 'drops' not in name:
                    self.edited_surely(image, covered, 8)
                if taker.takes:
                    self.edited_surely(image, named, 8)

    def test_a_subroutine_that_never_comes_back(self):
        image = self.image(label_takers.NEVER_BACK)
        made = self.edited('gdis', 0x6000, image, Wishes(), 5)
        self.assertEqual((made.doubts, b"TEXT 'GAME OVER'" in made.text), ([], True))


if __name__ == '__main__':
    unittest.main()
