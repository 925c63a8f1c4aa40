"""Tests of tools/steps: the data of a page, replayed here, against what the program writes."""
import json
import random
import re
import unittest

from calling import TOP, Calling
from lib import program
from lib.dump import dump

DATA = re.compile(r'<script type="application/json" id="data">(.*?)</script>', re.S)
CELLS, VIDEO, REGISTERS, END = 0x8300, 0x10000, 0x14000, 0x14011
FIRST_GROM = 0x6000
# An instruction, and how many bytes it has.
SIZES = [('INC @>8300', 2), ('ST @>8301,>20', 3), ('RAND 9', 2), ('DST @>8302,>1234', 4), ('ALL >20', 2),
         ('ADD @>8300,@>8301', 3), ('BACK >17', 2), ('ST V@>0000,@>8300', 4)]


def data_of(page):
    return json.loads(DATA.search(page.decode())[1])


def apply(memory, changes):
    for at, digits, *times in changes:
        data = bytes.fromhex(digits) * (times[0] if times else 1)
        memory[at:at + len(data)] = data


def states(data):
    """The memory before the first step, and after each."""
    memory = bytearray(END)
    apply(memory, data['first'])
    yield bytes(memory)
    for _, _, *changes in data['steps']:
        apply(memory, changes)
        yield bytes(memory)


class Steps(Calling):
    def setUp(self):
        super().setUp()
        self.program = program.program()

    def page(self, source, *words, name='a b.gpl'):
        self.file(name, source)
        ended = self.call('steps', name, *words)
        self.assertEqual((ended.returncode, ended.stderr), (0, b''))
        return ended.stdout

    def shown(self, source, number):
        return dump(self.program.run('run', str(number), given=source).out.decode('latin-1'))

    def test_each_state_of_a_page_is_the_one_that_run_writes(self):
        for example in ('calls', 'show'):
            source = (TOP / 'examples' / example / 'input').read_bytes()
            for number, memory in enumerate(states(data_of(self.page(source)))):
                state = self.shown(source, number)
                self.assertEqual(memory[CELLS:CELLS + 0xC2], state.pad[:0xC2])
                self.assertEqual(memory[VIDEO:REGISTERS], state.vdp)
                self.assertEqual(memory[REGISTERS:REGISTERS + 8], state.registers)

    def test_lines_have_the_places_that_follow_from_their_sizes(self):
        for seed in range(20):
            chance = random.Random(seed)
            at, rows, names, wanted = FIRST_GROM, [], {}, []
            for number in range(1, chance.randrange(5, 60)):
                label = f'L{number}' if chance.random() < 0.3 else ''
                if chance.random() < 0.2:
                    data = bytes(chance.randrange(256) for _ in range(chance.randrange(1, 20)))
                    text, size = 'BYTE ' + ','.join(f'>{byte:02X}' for byte in data), len(data)
                elif chance.random() < 0.1:
                    text, size = '', 0
                else:
                    text, size = chance.choice(SIZES)
                rows.append(f'{label} {text}'.rstrip() if text or label else '* a comment')
                if label:
                    names[label] = at
                wanted.append((at, size))
                at += size
            data = data_of(self.page('\n'.join([*rows, ' END >6000', '']).encode(), '0'))
            placed = [(address, len(digits) // 2) for _, address, digits in data['lines']]
            self.assertEqual(placed[:len(wanted)], wanted)
            self.assertEqual({name: value for name, value, _ in data['names']}, names)
            self.assertEqual([text for text, _, _ in data['lines']][:len(rows)], rows)

    def test_each_state_of_the_processor_is_the_one_that_exec_writes(self):
        objects = (TOP / 'examples/instructions/input').read_bytes()
        self.file('a.obj', objects)
        data = data_of(self.call('steps', '--exec', 'a.obj', '40').stdout)
        befores = [(at, wp, st) for at, _, wp, st, *_ in data['steps']]
        memory = bytearray(END)
        apply(memory, data['first'])
        for number, (step, before) in enumerate(zip(data['steps'], befores)):
            report = self.program.run('exec', str(number), given=objects).out.decode()
            state, shown = dump(report), re.search('PC >(....) WP >(....) ST >(....)', report)
            self.assertEqual(memory[CELLS:CELLS + 0x100], state.pad)
            self.assertEqual(memory[VIDEO:REGISTERS], state.vdp)
            self.assertEqual(before, tuple(int(digits, 16) for digits in shown.groups()))
            apply(memory, step[4:])
        self.assertEqual((len(data['steps']), data['end']), (40, 'Cut off after 40 instructions, the limit.'))

    def test_lines_of_sources_are_where_the_loader_put_them(self):
        """Two modules of which the second copies a file. The addresses follow from the sizes of the lines."""
        self.file('one.asm', b"* one\n REF ADD,MASK\nSTART LI R2,MASK\n BL @ADD\nWORD TEXT 'ABC'\n END START\n")
        self.file('two.asm', b"* two\n DEF ADD,MASK\nMASK EQU >0F0F\nADD A R2,@SUM\n JMP MORE\n"
                             b"SUM DATA 1,2,SUM,4,5\n COPY 'part.src'\n END\n")
        self.file('part.src', b'MORE INC R2\n B *R11\n')
        for name in ('one', 'two'):
            self.assertEqual(self.call('assemble', '-o', f'{name}.obj', f'{name}.asm').returncode, 0)
        self.file('both.obj', b''.join((self.folder / f'{name}.obj').read_bytes() for name in ('one', 'two')))
        ended = self.call('steps', '--exec', '--source', 'one.asm', '--source', 'two.asm', 'both.obj', '5')
        self.assertEqual((ended.returncode, ended.stderr), (0, b''))
        data = data_of(ended.stdout)
        self.assertEqual([line for line in data['lines'] if line[2]], [
            ['START LI R2,MASK', 0xA000, '02020f0f', 'one.asm:3'], [' BL @ADD', 0xA004, '06a0a00c', 'one.asm:4'],
            ["WORD TEXT 'ABC'", 0xA008, '414243', 'one.asm:5'], ['ADD A R2,@SUM', 0xA00C, 'a802a012', 'two.asm:4'],
            [' JMP MORE', 0xA010, '1005', 'two.asm:5'],
            ['SUM DATA 1,2,SUM,4,5', 0xA012, '00010002a01200040005', 'two.asm:6'],
            ['MORE INC R2', 0xA01C, '0582', 'part.src:1'], [' B *R11', 0xA01E, '045b', 'part.src:2']])
        names = {(name, value) for name, value, _ in data['names']}
        self.assertEqual(names, {('START', 0xA000), ('WORD', 0xA008), ('ADD', 0xA00C), ('MASK', 0x0F0F),
                                 ('SUM', 0xA012), ('MORE', 0xA01C)})

    def test_a_source_of_another_object_makes_no_page(self):
        self.file('a.asm', b"S LI R1,5\n JMP $\n END S\n")
        self.file('b.asm', b"S LI R1,6\n JMP $\n END S\n")
        self.call('assemble', '-o', 'a.obj', 'a.asm')
        ended = self.call('steps', '--exec', '--source', 'b.asm', 'a.obj')
        self.assertEqual((ended.returncode, ended.stdout), (1, b''))
        self.assertIn(b'b.asm: the words of this source are not in the object text\n', ended.stderr)
        self.assertEqual(self.call('steps', '--source', 'a.asm', 'a.obj').returncode, 2)

    def test_a_refused_source_of_an_object_is_reported(self):
        self.file('a.asm', b"S LI R1,5\n JMP $\n END S\n")
        self.call('assemble', '-o', 'a.obj', 'a.asm')
        self.file('b.asm', b"S LI R1\n END S\n")
        ended = self.call('steps', '--exec', '--source', 'b.asm', 'a.obj')
        self.assertEqual((ended.returncode, ended.stderr.splitlines()[0]), (1, b'b.asm:1: operand count'))

    def test_how_a_run_of_the_processor_ended_is_said(self):
        for words, end, stopped in (
                (b'BC060B8800', 'Stopped at a word access to the port >8800 after 0 instructions.', True),
                (b'B0340', 'Stopped at a word that is not executed, at >A000 after 0 instructions.', True),
                (b'B10FF', 'Ended at JMP $ after 1 instruction.', False)):
            self.file('a.obj', b'00004        A0000' + words + b'20000F\n:\n')
            data = data_of(self.call('steps', '--exec', 'a.obj').stdout)
            self.assertEqual((data['end'], data['stopped']), (end, stopped))

    def test_an_input_of_the_other_kind_has_a_note(self):
        source = b'S LI R1,5\n JMP $\n END S\n'
        self.file('a.asm', source)
        self.call('assemble', '-o', 'a.obj', 'a.asm')
        objects = (self.folder / 'a.obj').read_bytes()
        looks = b'this looks like object text; --exec takes it'
        assembler = b'this is an assembler source; assemble it, and give the object text with --exec'
        no_text = b'this is no text; the bytes of an image are listed by gdis'
        no = b'this is no object text; assemble the source first'
        for words, name, data, note in (
                ([], 'a.obj', objects, looks), ([], 'a.gpl', b'\x01\0\4        A\0\0B\x10\xff', looks),
                ([], 'a.obj', b'00004 NO OBJECT\n', None), ([], 'a.obj', source, None), ([], 'a.gpl', b' FOO\n', None),
                ([], 'a.asm', source, assembler), ([], 'B.A99', source, assembler), ([], 'a.asm', objects, looks),
                ([], 'a.bin', b'\xaa\1\1\0\0\0', no_text), ([], 'a.gpl', source, None),
                (['--exec'], 'a.asm', source, no), (['--exec'], 'A.GPL', b' EXIT\n END >6000\n', no),
                (['--exec'], 'a.txt', source, None), (['--exec'], 'a.asm', b'00004        A0000\n', None)):
            with self.subTest(words=words, name=name, data=data):
                self.file(name, data)
                ended = self.call('steps', *words, name)
                lines = [line for line in ended.stderr.split(b'\n') if b': note: this ' in line]
                wanted = [b'%s: note: %s' % (name.encode(), note)] if note else []
                self.assertEqual((ended.returncode, lines), (1, wanted))

    def test_refused_object_text_is_reported(self):
        self.file('a.obj', b'0')
        ended = self.call('steps', '--exec', 'a.obj')
        self.assertEqual((ended.returncode, ended.stdout), (1, b''))
        self.assertTrue(ended.stderr.startswith(b'a.obj:1: short field\n'))

    def test_how_a_run_ended_is_said(self):
        for source, words, end, stopped in (
                (b' EXIT\n END >6000\n', [], 'Ended by EXIT at >6000 after 0 steps.', False),
                (b'S INC @>8300\n B S\n END S\n', ['3'], 'Cut off after 3 steps, the limit.', False),
                (b'S INC @>8300\n ST @>83C2,@>8300\n END S\n', [], 'Stopped at >6002 after 1 step: ', True)):
            data = data_of(self.page(source, *words))
            self.assertEqual((data['end'][:len(end)], data['stopped']), (end, stopped))

    def test_a_text_of_the_source_stays_a_text(self):
        comments = [b'* </script><script>alert(1)</script>', b'* <!-- {{script}} {{data}}', b'* \0\x01\x7f',
                    b'* \xff\xfe no UTF-8', '* ümläut'.encode(), b'* \\u003c "quoted" \\', b'* \xe2\x80\xa8 a line']
        page = self.page(b'\n'.join([*comments, b' EXIT', b' END >6000', b'']))
        self.assertEqual(page.count(b'</script>'), 2)
        texts = [text for text, _, _ in data_of(page)['lines']]
        self.assertEqual(texts[:3], [comment.decode() for comment in comments[:3]])
        self.assertEqual(texts[3:5], ['* ÿþ no UTF-8', '* ümläut'])

    def test_a_long_source_has_a_page(self):
        source = b'* a line of a comment\n' * 47_000 + b'S EXIT\n END S\n'
        data = data_of(self.page(source))
        self.assertEqual((len(data['lines']), data['names']), (47_002, [['S', FIRST_GROM, 47_001]]))

    def test_the_name_of_a_file_stays_a_text(self):
        page = self.page(b' EXIT\n END >6000\n', name='<b>&\'"; {{data}}.gpl').decode()
        title = '&lt;b&gt;&amp;&#x27;&quot;; {{data}}.gpl, step by step'
        self.assertEqual(re.findall('<title>(.*)</title>', page), [title])
        self.assertEqual(data_of(page.encode())['name'], '<b>&\'"; {{data}}.gpl')

    def test_a_refused_source_is_reported_as_compilers_do(self):
        self.file('bad.gpl', b' EXIT\n ST @>8300, 5\n')
        ended = self.call('steps', 'bad.gpl')
        self.assertEqual((ended.returncode, ended.stdout), (1, b''))
        self.assertEqual(ended.stderr.splitlines()[:2], [b'bad.gpl:2: bad operand', b'     ST @>8300, 5'])
        self.file('none.gpl', b' EXIT\n')
        ended = self.call('steps', 'none.gpl')
        self.assertEqual((ended.returncode, ended.stderr), (
            1, b'none.gpl: no entry\nnone.gpl: note: the entry is what END names, as in END START\n'))

    def test_wrong_words(self):
        self.file('a.gpl', b' EXIT\n END >6000\n')
        for words in ([], ['a.gpl', '100001'], ['a.gpl', '-1'], ['a.gpl', 'x'], ['a.gpl', '1', '2']):
            self.assertEqual(self.call('steps', *words).returncode, 2)
        for seconds in ('-1', 'nan', 'inf', '1e3', '١', ''):
            self.assertEqual(self.call('steps', '--seconds', seconds, 'a.gpl').returncode, 2)
        self.assertEqual(self.call('steps', 'missing.gpl').returncode, 3)

    def test_an_output_file(self):
        self.file('a.gpl', b' EXIT\n END >6000\n')
        ended = self.call('steps', '-o', 'page.html', 'a.gpl')
        self.assertEqual((ended.returncode, ended.stdout), (0, b''))
        self.assertTrue((self.folder / 'page.html').read_bytes().startswith(b'<!DOCTYPE html>'))
        ended = self.call('steps', '-o', './a.gpl', 'a.gpl')
        self.assertEqual((ended.returncode, (self.folder / 'a.gpl').read_bytes()), (2, b' EXIT\n END >6000\n'))
        self.assertIn(b'./a.gpl: the output would replace a file that is read', ended.stderr)

    def test_a_file_that_a_source_copies_is_no_output(self):
        self.file('a.asm', b' COPY "PART.SRC"\n END S\n')
        part = self.file('PART.SRC', b'S LI R1,5\n JMP $\n')
        self.call('assemble', '-o', 'a.obj', 'a.asm')
        ended = self.call('steps', '--exec', '--source', 'a.asm', '-o', 'PART.SRC', 'a.obj')
        self.assertEqual((ended.returncode, part.read_bytes()), (2, b'S LI R1,5\n JMP $\n'))
        self.assertIn(b'PART.SRC: the output would replace a file that is read', ended.stderr)

    def test_another_program_makes_no_page(self):
        self.file('a.gpl', b' EXIT\n END >6000\n')
        ended = self.call('steps', 'a.gpl', TI_DEBUG='/bin/true')
        self.assertEqual((ended.returncode, ended.stdout, ended.stderr), (
            1, b'', b'tools/steps: the bytes of the lines are not those that the source is assembled to\n'))

    def test_a_refused_assembler_source_is_one_by_its_operations(self):
        self.file('a.gpl', b'S LI R1,5\n JMP $\n END S\n')
        self.assertEqual(self.call('steps', 'a.gpl').stderr.splitlines()[2],
                         b'a.gpl:1: note: LI is an operation of the TMS9900, and this is a GPL source')


if __name__ == '__main__':
    unittest.main()
