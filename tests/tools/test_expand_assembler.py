"""Tests of assembler sources with macros and other forms, as tools/expand and the tools that stand on it take them."""
import json
import os
import random
import re

import splits
from calling import TOP, Calling
from editing.names import assembler
from expanding import names as known
from expanding.expand import expanded, has_forms
from expanding.places import Refused
from lib.languages import ASSEMBLER
from lib.program import Program

LANGUAGE, WORDS = assembler(), known.WORDS[ASSEMBLER]
# the directives that take a text in quotes and nothing else
OF_TEXTS = {'TEXT', 'IDT', 'TITL'}
FORMS = [b' BIN "A"', b'SAY MACRO A,B', b' ENDM', b' IF 1', b' IFDEF A', b' ELSE', b' ENDIF', b' CELLS >8300,>8371',
         b'X CELL 2', b'.x RT', b'.x']
# a text with what looks like a form and is none
ACCEPTED = (b"* BIN \"A\"\r\n\tTEXT\t'.x \\A'  a comment .x \\A\n RT .x\n EVEN .x\n PAGE .x\nIF EQU 5 IF\nBIN RT ' it\n"
            b" BYTE '.'\n\n \n END\n BIN \"A\"\n.x\nX MACRO\n IF")
FILES = {'main.a': b"""       COPY "macros.a"
       CELLS >8320,>8323
SUM    CELL 2
       DEF  START
START  LWPI >8300
       LI   R10,>8380
       LI   R1,5
       CLR  R2
.loop  A    R1,R2       adds
       DEC  R1
       JNE  .loop
       BL   @STORE
       JMP  $
STORE  PUSH R11
.loop  MOV  R2,@SUM
       IFDEF TWICE
       A    R2,@SUM
       ENDIF
       POP  R11
       RT               back to .loop
BYTES  BIN  "bytes"
       END  START
""", 'macros.a': b"""PUSH   MACRO REG
       DECT R10
       MOV  \\REG,*R10
       ENDM
POP    MACRO REG
       MOV  *R10+,\\REG
       ENDM
""", 'bytes': bytes(range(17))}
BY_HAND = b"""SUM    EQU  >8320
       DEF  START
START  LWPI >8300
       LI   R10,>8380
       LI   R1,5
       CLR  R2
LOOP   A    R1,R2
       DEC  R1
       JNE  LOOP
       BL   @STORE
       JMP  $
STORE  DECT R10
       MOV  R11,*R10
       MOV  R2,@SUM
%s       MOV  *R10+,R11
       RT
BYTES  BYTE 0,1,2,3,4,5,6,7,8,9,10,11,12,13,14,15,16
       END  START
"""


def bench():
    return Program(os.environ['TI_BENCH'])


def sources():
    """The assembler sources of the examples that copy no file."""
    for words in sorted((TOP / 'examples').glob('*/words')):
        if words.read_text().split()[0] in ('asm', 'list'):
            source = (words.parent / 'input').read_text('latin-1')
            if 'COPY' not in source:
                yield source


class Assembler(Calling):
    def setUp(self):
        super().setUp()
        for name, data in FILES.items():
            self.file(name, data)

    def expand(self, main):
        return expanded(str(self.folder / 'x.a'), main, (), ASSEMBLER)

    def test_the_words_are_those_of_the_definitions(self):
        named = {'DEF', 'REF'}
        self.assertEqual(WORDS.bare, {*LANGUAGE.bare_operations, *LANGUAGE.bare_directives} | named)
        self.assertEqual(WORDS.known, WORDS.bare | {*LANGUAGE.operations, *LANGUAGE.directives,
                                                    *LANGUAGE.file_directives})
        self.assertFalse(known.REFUSED[ASSEMBLER] & WORDS.known)

    def test_the_program_refuses_each_form_but_copy(self):
        self.assertEqual(known.FORMS - known.REFUSED[ASSEMBLER], {'COPY'})
        for line in FORMS:
            ended = bench().run('asm', given=line + b'\n')
            self.assertIn((ended.status, ended.fault), [(1, 'line 1: unknown operation'), (1, 'line 1: bad label')])
            self.assertTrue(has_forms(b' RT\n' + line, ASSEMBLER), line)
        self.assertFalse(has_forms(b' COPY "A"\n', ASSEMBLER))

    def test_the_program_refuses_a_local_label_in_each_operand(self):
        for operation in sorted(WORDS.known - WORDS.bare - OF_TEXTS | {'DEF', 'REF'}):
            ended = bench().run('asm', given=f'X {operation} .x\n'.encode())
            self.assertEqual(ended.status, 1, operation)
        for operation in sorted(WORDS.bare - {'DEF', 'REF'}):
            self.assertEqual(self.expand(f'L\n.x {operation} .x\n'.encode()).text, f'L\nX1 {operation} .x\n'.encode())
        self.assertEqual(self.expand(b' DEF .x\n').text, b' DEF .x\n')

    def test_a_source_without_forms_comes_out_byte_for_byte(self):
        self.assertEqual(bench().run('asm', given=ACCEPTED).status, 0)
        self.assertFalse(has_forms(ACCEPTED.partition(b' END')[0], ASSEMBLER))
        for source in (ACCEPTED, *(text.encode('latin-1') for text in sources())):
            self.assertEqual(self.expand(source).text, source)

    def test_splits_expand_to_their_source(self):
        given = [*sources(), ACCEPTED.partition(b' END')[0].decode() + ' END\n']
        self.assertGreater(len(given), 1)
        for number in range(100):
            text = given[number % len(given)]
            split = splits.Split(text, random.Random(number))
            for file, data in split.files.items():
                self.file(file, data.encode('latin-1'))
            made = splits.joined(self.expand(split.files['main.gpl'].encode('latin-1')).text.decode('latin-1'))
            # a file or a macro that has END ends the source there
            self.assertTrue(text.startswith(made) and len(made) >= text.find(' END'), number)

    def test_the_module_is_the_one_of_its_lines_joined_by_hand(self):
        for define, line in ((), b''), (('-D', 'TWICE'), b'       A    R2,@SUM\n'):
            ended = self.call('assemble', *define, 'main.a')
            wanted = bench().run('asm', given=BY_HAND % line)
            self.assertEqual((wanted.fault, ended.stderr, ended.stdout), ('', b'', wanted.out))
            one = self.call('expand', *define, 'main.a').stdout
            self.assertEqual(bench().run('asm', given=one).out, wanted.out)

    def test_copies_are_left_to_asm_if_no_file_has_a_form(self):
        self.file('x.a', b' COPY "y.a"\n END\n')
        self.file('y.a', b' COPY "z.a"\n')
        self.file('z.a', b' RT R1\n FOO\n')
        self.assertEqual(self.call('assemble', 'x.a').stderr, b'z.a:2: unknown operation\n     FOO\n')
        self.assertEqual(self.call('expand', 'x.a').stdout, b'*COPY "y.a"\n*COPY "z.a"\n RT R1\n FOO\n END\n')
        self.file('z.a', b'FOO MACRO\n RT\n ENDM\n FOO\n BAR\n')
        self.assertEqual(self.call('assemble', 'x.a').stderr, b'z.a:5: unknown operation\n     BAR\n')
        self.file('z.a', b' RT\n')
        self.assertEqual(self.call('assemble', '-o', 'z.a', 'x.a').returncode, 2)

    def test_the_name_or_an_option_says_the_language(self):
        self.file('x.txt', b'L\n.x RT .x\n')
        self.assertEqual(self.call('expand', '--asm', 'x.txt').stdout, b'L\nX1 RT .x\n')
        self.assertEqual(self.call('expand', 'x.txt').stdout, b'L\nX2 RT X2\n'.replace(b'2', b'1'))
        self.assertEqual(self.call('expand', '--gpl', '--asm', 'x.txt').returncode, 2)

    def test_refusals_have_the_author_s_lines(self):
        self.file('main.a', FILES['main.a'].replace(b'PUSH R11', b'PUSH R99'))
        self.assertEqual(self.call('assemble', 'main.a').stderr, (
            b'main.a:14: unknown name\n           MOV  R99,*R10\nmain.a:14: note: in PUSH of macros.a:3\n'))
        with self.assertRaisesRegex(Refused, '^x.a:1: missing none'):
            self.expand(b' BIN "none"\n')

    def page(self, *words):
        ended = self.call('steps', '--exec', *words)
        self.assertEqual((ended.returncode, ended.stderr), (0, b''))
        return json.loads(re.search(r'>(\{"kind".*?)</script>', ended.stdout.decode(), re.S)[1])

    def test_a_page_has_the_author_s_lines_once(self):
        self.assertEqual(self.call('assemble', '-D', 'TWICE', '-o', 'main.obj', 'main.a').returncode, 0)
        data = self.page('-D', 'TWICE', '--source', 'main.a', 'main.obj')
        rows = [(called, text, len(digits) // 2) for text, _, digits, called in data['lines']]
        for row in (('main.a:14', 'STORE  PUSH R11', 0), ('main.a:14 PUSH:3', '       MOV  R11,*R10', 2),
                    ('main.a:15', '.loop  MOV  R2,@SUM', 4), ('main.a:21', 'BYTES  BIN  "bytes"', 17)):
            self.assertEqual(rows.count(row), 1, row)
        self.assertEqual(len({called for called, _, _ in rows}), len(rows))
        self.assertIn('STORE.loop', [name for name, _, _ in data['names']])
        ended = self.call('steps', '--exec', '--source', 'main.a', 'main.obj')
        self.assertEqual((ended.returncode, ended.stdout), (1, b''))

    def test_a_refused_source_of_a_page_is_shown(self):
        self.call('assemble', '-o', 'main.obj', 'main.a')
        for old, new, text in ((b'@STORE', b'@STROE', b'main.a:12: unknown name\n           BL   @STROE\n'),
                               (b'JNE  .loop', b'JNE  .lop', b'main.a:11: unknown name: there is no START.lop\n'
                                b'           JNE  .lop\n')):
            self.file('main.a', FILES['main.a'].replace(old, new))
            ended = self.call('steps', '--exec', '--source', 'main.a', 'main.obj')
            self.assertEqual((ended.returncode, ended.stdout, ended.stderr), (1, b'', text))
