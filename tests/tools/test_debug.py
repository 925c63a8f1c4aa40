"""Tests of tools/debug: what it says of runs, and that two planted faults are found by a few of its words."""
import os
import pty
import re

from calling import TOOLS, TOP, Calling, hearing
from debugging import pages
from debugging.conditions import Wrong, condition
from debugging.record import Record, changes_of
from debugging.sizes import Sizes
from debugging.words import Names, State
from lib import program
from lib.dump import dump
from stepping.places import CELLS, END, REGISTERS, VIDEO

CALLS = (TOP / 'examples/calls/input').read_bytes()
# the carry of the sum is not added to the high byte of the return address
CARRY = b"""AT     EQU  >8300
LENGTH EQU  >8302
BACK   EQU  >8380
       AORG >00E4
START  ALL  >20
       DST  @AT,32
       CALL PUTS
       BYTE 5
       TEXT 'HELLO'
       CALL PUTS
       BYTE 12
       TEXT 'TWO CALLS ON'
       EXIT
PUTS   FETCH @LENGTH+1
       MOVE @LENGTH,V@0(@AT),G@0(@BACK)
       DADD @AT,32
       ADD  @BACK+1,@LENGTH+1
       RTN
       END  START
"""
# BOTH calls TABLE, and has its own return address no more
REGISTER = b"""START  LWPI >8300
       CLR  R3
       LI   R1,ONE
       BL   @BOTH
       JMP  $
BOTH   BL   @TABLE
       LI   R1,TWO
       BL   @TABLE
       B    *R11
TABLE  LI   R2,3
NEXT   A    *R1+,R3
       DEC  R2
       JNE  NEXT
       B    *R11
ONE    DATA 1,2,3
TWO    DATA 10,20,30
       END  START
"""


class Debug(Calling):
    def talk(self, source, *commands, name='a.gpl', words=(), **environment):
        """What is answered to each command, after the lines at the beginning."""
        self.file(name, source)
        ended = self.call('debug', *words, name, given='\n'.join(commands).encode(), **environment)
        self.assertEqual(ended.stderr, b'')
        return [part.partition('\n')[2] for part in ended.stdout.decode().split('(debug) ')], ended.returncode

    def test_steps_over_calls_and_out_of_them(self):
        answers, status = self.talk(CALLS, 's', 's', 'n', 'rn', 's', 'fin', 'rfin', 'g 4', 'fin', 'bt', 'c', 'rc')
        places = [re.findall(r'^ +([0-9]+) >[0-9A-F]{4}', answer, re.M)[-1] for answer in answers[1:]
                  if re.match(' +[0-9A-Z]', answer)]
        self.assertEqual(status, 0)
        # CALL SHOW is step 2, and the routine ends with step 9
        self.assertEqual(places, ['1', '2', '3', '2', '3', '9', '0', '4', '9', '20', '0'])
        self.assertIn('SHOW, called in step 2', self.talk(CALLS, 'g 4', 'bt')[0][2])

    def test_a_carry_that_is_lost_is_found(self):
        answers, status = self.talk(CARRY, 'when PC < START', 'rs', 'bt', 'last >8380+2')
        self.assertEqual(status, 0)
        self.assertIn('RTN  changed >8373 80->7E', answers[1])
        self.assertRegex(answers[3], '#0 PUTS, called in step 9 at >60F3 a.gpl:10; '
                         'returns to >6003, -243 from the end of the call')
        self.assertRegex(answers[4], r'step 13 at >6112 a.gpl:17\n +ADD @>8381,@>8303  changed .*BACK >8380 60F7->6003')

    def test_a_register_that_is_not_saved_is_found(self):
        answers, status = self.talk(REGISTER, 'c', 'bt', 'last R11', name='a.asm')
        self.assertEqual(status, 0)
        self.assertRegex(answers[2], r'#0 BOTH, called in step 4 .*; R11 is .*a\.asm:9, \+14 from the end of')
        self.assertRegex(answers[3], r'step 18 at >[0-9A-F]{4} a\.asm:8\n +BL @>[0-9A-F]{4}  changed R11 ')

    def test_values_are_those_of_the_dump(self):
        bench = program.program()
        answers, _ = self.talk(CALLS, *(text for number in range(0, 25, 3) for text in (
            f'g {number}', 'x >8300+194', 'x V>0000+64', 'x VR1')))
        for index, number in enumerate(range(0, 25, 3)):
            state = dump(bench.run('run', str(number), given=CALLS).out.decode('latin-1'))
            shown = [bytes.fromhex(''.join(re.findall(r'^V?[>R][0-9A-F]+ ((?:[0-9A-F]{2} ?)+)', answer, re.M)))
                     for answer in answers[4 * index + 2:4 * index + 5]]
            self.assertEqual(shown, [state.pad[:194], state.vdp[:64], state.registers[1:2]])

    def test_breaks_and_conditions(self):
        answers, status = self.talk(CALLS, 'b SHOW if COUNT = 1', 'w SUM', 'i', 'c', 'd 2', 'c', 'rwhen COUNT = 2',
                                    'p COUNT', 'callers SHOW', 'l SHOW', 'screen', 'regs', 'h')
        self.assertEqual(status, 0)
        self.assertEqual(answers[3].count('\n'), 2)
        self.assertTrue(answers[4].startswith('stop: 2 SUM changes\n'))
        self.assertTrue(answers[6].startswith('stop: 1 SHOW at '))
        self.assertEqual(answers[8], 'COUNT >02 2\n')
        self.assertRegex(answers[9], r'^ +2 times at >[0-9A-F]{4} a\.gpl:6, first in step 2\n$')
        self.assertIn('-> a.gpl:10', answers[10])

    def test_wrong_lines_are_said_and_go_on(self):
        answers, status = self.talk(CALLS, 'foo', 's x', 'b NONE5', 'when', 'when COUNT =', 'p', 'd 9', 'x 99999',
                                    'last', 'l >0001', 's')
        self.assertEqual(status, 1)
        self.assertEqual(answers[1], 'foo: no command; h lists them\n')
        self.assertEqual(answers[5], 'a name, a number or a place is wanted at the end\n')
        self.assertIn('      1 >', answers[11])

    def test_a_page_is_opened_again(self):
        self.file('a.gpl', CALLS)
        self.assertEqual(self.call('debug', '-o', 'a.html', 'a.gpl').returncode, 0)
        page = self.folder / 'a.html'
        first = self.call('debug', 'a.gpl', given=b'g 9\nbt\np SUM\n').stdout
        self.assertEqual(self.call('debug', 'a.html', given=b'g 9\nbt\np SUM\n', TI_BENCH='/none').stdout, first)
        for data in (b'', b'<p>', page.read_bytes().replace(b'"calls":', b'"other":')):
            self.file('b.html', data)
            ended = self.call('debug', 'b.html')
            self.assertEqual((ended.returncode, ended.stdout), (1, b''))
            self.assertIn(b'b.html: no page of a run', ended.stderr)

    def test_words_refusals_and_control_codes(self):
        self.file('a.gpl', b' FOO\n')
        ended = self.call('debug', 'a.gpl')
        self.assertEqual((ended.returncode, ended.stderr.splitlines()[0]), (1, b'a.gpl:1: unknown operation'))
        for words in ([], ['-'], ['a.gpl', 'x'], ['--module', 'b.asm', 'a.gpl'], ['a.gpl', '1', '2']):
            self.assertEqual(self.call('debug', *words).returncode, 2)
        self.assertEqual(self.call('debug', 'none.gpl').returncode, 3)
        answers, _ = self.talk(b'S ST @>8300,1 \x1b]0;title\x07\n EXIT\n END S\n', 'l', 's', 'foo\x1b[2J')
        self.assertNotIn('\x1b', ''.join(answers))

    def test_a_lying_program_and_a_full_disk(self):
        self.file('a.gpl', CALLS)
        ended = self.call('debug', '-o', '/dev/full', 'a.gpl')
        self.assertEqual(ended.returncode, 3)
        liar = self.file('liar', b'#!/bin/sh\nif [ "$1" = gsteps ] && [ "$2" != 0 ]; then "$REAL" "$@" | '
                                 b'sed "s/>8301=5A/>8301=5B/"; else exec "$REAL" "$@"; fi\n')
        liar.chmod(0o755)
        real = program.other(program.program().path, 'ti_debug')
        ended = self.call('debug', 'a.gpl', REAL=real, TI_DEBUG=str(liar))
        self.assertEqual((ended.returncode, ended.stdout), (1, b''))

    def test_a_person_at_a_terminal_has_a_prompt(self):
        self.file('a.gpl', CALLS)
        child, terminal = pty.fork()
        if not child:
            hearing()
            os.chdir(self.folder)
            os.execv(TOOLS / 'debug', ['debug', 'a.gpl'])
        os.write(terminal, b's\nfoo\nq\n')
        shown = b''
        try:
            while part := os.read(terminal, 4096):
                shown += part
        except OSError:
            pass
        os.close(terminal)
        self.assertEqual(os.waitstatus_to_exitcode(os.waitpid(child, 0)[1]), 0)
        self.assertGreaterEqual(shown.count(b'(debug) '), 3)
        self.assertIn(b'foo: no command', shown)


class Windows(Calling):
    def record(self, *words):
        self.file('a.gpl', CALLS)
        ended = self.call('steps', '-o', 'a.html', *words, 'a.gpl')
        self.assertEqual((ended.returncode, ended.stderr), (0, b''))
        return Record(pages.read(str(self.folder / 'a.html')))

    def test_the_state_before_the_first_step_is_the_one_of_the_run(self):
        whole = self.record()
        for words in (['--from', '7', '--to', '20'], ['--from', '1'], ['--from', '19'], ['--to', '5'],
                      ['--from', '0'], ['--at', 'COUNT = 1'], ['--from', '3', '--at', 'COUNT = 1']):
            with self.subTest(words):
                part = self.record(*words)
                for number in range(part.first, part.last + 1):
                    self.assertEqual(part.memory(number), whole.memory(number))
                    self.assertEqual(part.next_at(number), whole.next_at(number))
                    self.assertEqual([frame[:2] for frame in part.frames(number)],
                                     [frame[:2] for frame in whole.frames(number)])
                self.assertEqual([step.text for step in part.steps],
                                 [step.text for step in whole.steps[part.first:part.last]])

    def test_a_page_opens_at_the_first_step_of_its_condition(self):
        whole = self.record()
        for text in ('COUNT = 1', 'DEPTH > 2', 'PC = NEXT', 'SUM changes', 'old PC = SHOW', 'STEP = 20'):
            first = whole.where(condition(text, whole.names))[0]
            self.assertEqual(self.record('--at', text).data['at'], first)
            self.assertEqual(self.record('--from', str(first - 1), '--at', text).data['at'], first)

    def test_what_is_not_there_is_said(self):
        self.file('a.gpl', CALLS)
        for words, status, text in (
                (['--at', 'COUNT = 77'], 1, b'COUNT = 77: at no step of 20\n'),
                (['--at', 'COUNT ='], 2, b'COUNT =: a name, a number or a place is wanted at the end\n'),
                (['--from', '99'], 1, b'20 steps were made, and 99 are to be left out\n'),
                (['--to', '3', '5'], 2, b'--to and N say the same\n')):
            words = [*words[:-1], 'a.gpl', words[-1]] if words[-1] == '5' else [*words, 'a.gpl']
            ended = self.call('steps', *words)
            self.assertEqual((ended.returncode, ended.stdout), (status, b''))
            self.assertTrue(ended.stderr.endswith(text), ended.stderr)

    def test_cells_of_a_block_have_the_widths_that_it_gives(self):
        main = TOP / 'examples/lights/lights.gpl'
        ended = self.call('steps', '-o', 'a.html', '-D', 'BENCH', main, '5')
        self.assertEqual((ended.returncode, ended.stderr), (0, b''))
        places = {name: size for name, _, size in pages.read(str(self.folder / 'a.html'))['places']}
        self.assertEqual([places[name] for name in ('BOARD', 'AT', 'KEY')], [49, 2, 1])

    def test_steps_around_a_condition_of_a_long_run(self):
        self.file('long.gpl', b'LOOP INC @>8300\n BR LOOP\n B LOOP\n END LOOP\n')
        ended = self.call('steps', '--at', '@>8300 = 250 and STEP > 800', '-o', 'a.html', 'long.gpl', '5000')
        self.assertEqual((ended.returncode, ended.stderr), (0, b''))
        record = Record(pages.read(str(self.folder / 'a.html')))
        at = record.data['at']
        self.assertEqual((at - record.first, record.last - at), (500, 500))
        self.assertEqual(record.memory(at)[0x8300], 250)


class ProcessorWindows(Calling):
    """The same of object text, whose states are those that `exec` writes."""

    def setUp(self):
        super().setUp()
        self.file('a.asm', REGISTER)
        self.program = program.program()
        self.objects = self.program.run('asm', given=REGISTER).out
        self.file('a.obj', self.objects)

    def record(self, *words):
        ended = self.call('steps', '-o', 'a.html', '--exec', '--source', 'a.asm', *words, 'a.obj')
        self.assertEqual((ended.returncode, ended.stderr), (0, b''))
        return Record(pages.read(str(self.folder / 'a.html')))

    def test_each_state_is_the_one_that_exec_writes(self):
        whole = self.record('--to', '60')
        for words in (['--from', '7', '--to', '20'], ['--from', '1', '--to', '60'], ['--from', '59', '--to', '60'],
                      ['--to', '5'], ['--at', 'R3 = 36', '--to', '60'], ['--from', '9', '--at', 'R2 = 1']):
            with self.subTest(words):
                part = self.record(*words)
                for number in range(part.first, min(part.last, whole.last) + 1):
                    report = self.program.run('exec', str(number), given=self.objects).out.decode()
                    shown = re.search('PC >(....) WP >(....) ST >(....)', report).groups()
                    self.assertEqual(part.next_at(number), tuple(int(digits, 16) for digits in shown))
                    self.assertEqual(part.memory(number)[CELLS:CELLS + 0x100], dump(report).pad)
                    self.assertEqual(part.memory(number), whole.memory(number))
                    self.assertEqual([frame[:2] for frame in part.frames(number)],
                                     [frame[:2] for frame in whole.frames(number)])
                self.assertEqual([step.text for step in part.steps][:whole.last - part.first],
                                 [step.text for step in whole.steps[part.first:part.last]])

    def test_a_page_opens_at_the_first_step_of_its_condition(self):
        whole = self.record('--to', '60')
        for text in ('R3 = 36', 'PC = TABLE', 'R11 changes', 'DEPTH > 2', 'STEP = 20'):
            first = whole.where(condition(text, whole.names))[0]
            self.assertEqual(self.record('--at', text).data['at'], first)
            self.assertEqual(self.record('--from', str(first - 1), '--at', text).data['at'], first)

    def test_what_is_not_there_is_said(self):
        for words, status, text in (
                (['--at', 'R3 = 77', '--to', '60'], 1, b'R3 = 77: at no step of 60\n'),
                (['--at', 'R3 = 77', '--to', '20'], 1, b'R3 = 77: at no step of 20\n'),
                (['--at', 'R3 ='], 2, b'R3 =: a name, a number or a place is wanted at the end\n')):
            ended = self.call('steps', '--exec', *words, 'a.obj')
            self.assertEqual((ended.returncode, ended.stdout), (status, b''))
            self.assertTrue(ended.stderr.endswith(text), ended.stderr)


class Conditions(Calling):
    """Values that are worked out by hand; tests/page compares both languages on many more."""

    def test_values(self):
        memory = bytearray(END)
        memory[0x8300:0x8304] = bytes([1, 2, 0, 4])
        memory[VIDEO + 0x166] = 0x48
        memory[REGISTERS + 7] = 0x17
        before = bytearray(memory)
        before[0x8301] = 9
        old = State(4, before, 0x6000, 0, 0, 1)
        state = State(5, memory, 0x6010, 0, 0, 2, old)
        names = Names(False, {'P': (0x8300, 1), 'W': (0x8302, 2)}, {'P': 0x8300, 'W': 0x8302, 'SCREEN': 0x166,
                                                                      'LOOP': 0x6010}, frozenset([0x8302]))
        for text, value in (
                ('P', 1), ('P.1', 2), ('P:2', 258), ('W', 4), ('W:1', 0), ('@>8302', 4), ('@P.3', 4), ('P:4', 0x1020004),
                ('old P.1', 9), ('P.1 changes', 1), ('P changes', 0), ('V@SCREEN = >48', 1), ("V@>0166 = 'H'", 1),
                ('VR7 & >0F', 7), ('PC = LOOP', 1), ('DEPTH - old DEPTH', 1), ('@>8301(@>8302)', 0), ('*W', 0),
                ('STEP = 5 and not STEP changes', 0), ('1 + 2 = 3 or 0', 1), ('P < 2 and W > 3', 1), ('3 - 5', -2)):
            self.assertEqual(condition(text, names)(state), value, text)
        self.assertRaises(Wrong, condition, 'P and', names)

    def test_lengths_by_instructions(self):
        sizes = Sizes(['DST @>8300,>0001', 'ST @>8310(@>8302),>01', 'MOVE >0006,@>8320,G@>6000(@>8304)', 'CZ *>8306',
                       'MUL @>8330,@>8332', 'DMUL @>8340,>0005', 'DEC @>8350', 'DDEC @>8352', 'DIV @>8360,>02', 'RTN',
                       'DST V@>0100,@>8300', 'MOVE @>8370,V@>0000,@>8320'])
        self.assertEqual(sizes.words, [0x8300, 0x8302, 0x8304, 0x8306, 0x8330, 0x8340, 0x8342, 0x8352, 0x8360, 0x8370,
                                       VIDEO + 0x100])
        self.assertEqual((sizes.tables, sizes.sizes[0x8320]), ({0x8310}, 6))
        self.assertEqual(changes_of([CELLS, '01']), (CELLS, '01', 1))
