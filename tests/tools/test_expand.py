"""Tests of tools/expand: what the forms give, what is refused, and that splits of a source give the source again."""
import os
import random
import re
import subprocess
import time

import splits
from calling import TOP, Calling
from editing.names import gpl
from expanding import names as known
from expanding.expand import expanded, has_forms
from expanding.expression import REGISTERS, Unvalued, value
from expanding.lines import operation_of, parts_of
from expanding.places import Refused
from lib.languages import GPL
from lib.program import Program

# the operations and directives of each language are read from the definitions
LANGUAGE, WORDS = gpl(), known.WORDS[GPL]
# a line with each of the forms, which no source that the program accepts has
FORMS = [b' COPY "A.GPL"', b' BIN "A"', b'SAY MACRO A,B', b' ENDM', b' IF 1', b' IFDEF A', b' ELSE', b' ENDIF',
         b' CELLS >8300,>8371', b'X CELL 2', b'.x RTN', b'.x']
# a text with what looks like a form and is none
ACCEPTED = (b"* COPY \"A\"\r\n\tTEXT\t'.x \\A'  a comment .x \\A\n RTN .x\nCOPY RTN ' it\ncopy1\n"
            b"IF EQU 5 IF\n BYTE '.'\n\n \n END\n COPY \"A\"\n.x\nX MACRO\n IF")

UP_TO_END = re.compile(r'(?:(?![^\s*]*[ \t]+END\b).*\n)*(?:.*\n)?')


def bench():
    return Program(os.environ['TI_BENCH'])


def least_time(work):
    """The least time of the processor in which some work is done."""
    taken = []
    for _ in range(5):
        begin = time.process_time()
        work()
        taken.append(time.process_time() - begin)
    return min(taken)


def sources():
    """The GPL sources of the examples."""
    for words in sorted((TOP / 'examples').glob('*/words')):
        if words.read_text().split()[0] in ('gasm', 'run', 'trace', 'watch', 'glist', 'gsteps'):
            yield words.parent.name, (words.parent / 'input').read_bytes()


class Expanding(Calling):
    """Tests with the files of a source."""

    def expand(self, main, files=(), **defines):
        """A main file, expanded beside other files."""
        for name, data in dict(files).items():
            self.file(name, data)
        return expanded(str(self.folder / 'main.gpl'), main, defines)

    def anew(self, main):
        """A main file, expanded without what is kept of lines that came before."""
        operation_of.cache_clear()
        parts_of.cache_clear()
        return self.expand(main)

    def rows(self, main, files=(), **defines):
        """The rows of the map before a main file's lines: of each line the place and the text."""
        made = self.expand(main, files, **defines)
        return [f'{place}|{text}' for place, text in zip(made.places, made.text.decode('latin-1').splitlines())]


class Accepted(Expanding):
    def test_the_words_are_those_of_the_definitions(self):
        self.assertEqual(WORDS.bare, set(LANGUAGE.bare_operations))
        self.assertEqual(WORDS.known, {*LANGUAGE.operations, *LANGUAGE.bare_operations, *LANGUAGE.directives})
        self.assertFalse(known.FORMS & WORDS.known)

    def test_the_program_refuses_each_form(self):
        for line in FORMS:
            ended = bench().run('gasm', given=line + b'\n')
            self.assertIn((ended.status, ended.fault), [(1, 'line 1: unknown operation'), (1, 'line 1: bad label')])
            self.assertTrue(has_forms(line + b'\n') and has_forms(b' RTN\n' + line), line)

    def test_the_program_refuses_a_local_label_in_each_operand(self):
        for operation in sorted(WORDS.known - WORDS.bare - {'TEXT'}):
            ended = bench().run('gasm', given=f'X {operation} .x\n'.encode())
            self.assertEqual(ended.status, 1, operation)

    def test_a_source_without_forms_comes_out_byte_for_byte(self):
        self.assertEqual(bench().run('gasm', given=ACCEPTED).status, 0)
        self.assertEqual(has_forms(ACCEPTED.partition(b' END')[0]), False)
        for name, source in [('', ACCEPTED), ('', b''), ('', b'\n'), ('', b'\n\n'), ('', b' RTN'), *sources()]:
            with self.subTest(name):
                made = self.expand(source)
                self.assertEqual(made.text, source)
                self.assertEqual([str(place) for place in made.places],
                                 [f'main.gpl:{number}' for number in range(1, len(source.splitlines()) + 1)])

    def test_a_value_is_that_of_the_program(self):
        chosen, names = random.Random(1), {**REGISTERS, 'FIVE': 5, 'BIG': 0xFFF0}
        terms = ['0', '7', '65535', '>1', '>FfF0', 'FIVE', 'big', 'R15', "'A'", "'a''", "'AB'"]
        terms[9] = "''''"
        texts = [chosen.choice(['', '-']) + ''.join(chosen.choice(terms) + chosen.choice('+-*/')
                                                    for _ in range(chosen.randint(0, 4))) + chosen.choice(terms)
                 for _ in range(2000)]
        texts = [text for text in texts if valued(text, names) is not None]
        source = 'FIVE EQU 5\nBIG EQU >FFF0\n' + ''.join(f' DATA {text}\n' for text in texts)
        image = bench().run('gasm', given=source.encode()).out
        self.assertGreater(len(texts), 1500)
        self.assertEqual([value(text, names).to_bytes(2, 'big') for text in texts],
                         [image[at:at + 2] for at in range(0, len(image), 2)])
        for text in ('', '1+', '+1', '65536', '>10000', '1/0', '1 ', '$', "'", '(1)', 'NONE', '--1'):
            self.assertIsNone(valued(text, names), text)


def valued(text, names):
    try:
        return value(text, names)
    except Unvalued:
        return None


class Splits(Expanding):
    def test_a_thousand_splits_expand_to_their_source(self):
        odd = ACCEPTED.partition(b' END')[0] + b' END\n'
        given = [(name, source.decode('latin-1')) for name, source in [*sources(), ('odd', odd)]]
        for number in range(1000):
            name, text = given[number % len(given)]
            text = text if text.endswith('\n') else text + '\n'
            split = splits.Split(text, random.Random(number))
            for file, data in split.files.items():
                self.file(file, data.encode('latin-1'))
            made = expanded(str(self.folder / 'main.gpl'), split.files['main.gpl'].encode('latin-1'))
            shown = splits.joined(made.text.decode('latin-1'))
            # a file or a macro that has END ends the source there
            self.assertTrue(text.startswith(shown) and shown.startswith(UP_TO_END.match(text)[0]), (name, number))
            self.assertTrue(self.are_places(made, split), (name, number))
            if number % 250 == 0:
                images = [bench().run('gasm', given=it).out for it in (text.encode('latin-1'), made.text)]
                self.assertEqual(*images)

    def are_places(self, made, split):
        """Whether each line that comes from a file as it is stands there."""
        texts = {name: data.split('\n') for name, data in split.files.items()}
        lines = made.text.decode('latin-1').split('\n')
        return all(line == texts[place.file][place.number - 1] for line, place in zip(lines, made.places)
                   if not place.within and not splits.KEPT.match(line + '\n'))


class Forms(Expanding):
    def test_copied_files_and_binaries(self):
        self.assertEqual(self.rows(b'* a\n       COPY "B.GPL"   more\nX      BIN  \'C\'\r\n', {
            'B.GPL': b'\tcopy\t"D"\n RTN', 'D': b'* d\r\n', 'C': bytes(range(18))}), [
                'main.gpl:1|* a', 'main.gpl:2|*      COPY "B.GPL"   more', 'B.GPL:1|*\tcopy\t"D"', 'D:1|* d',
                'B.GPL:2| RTN', 'main.gpl:3|X', "main.gpl:3|*      BIN  'C'",
                'main.gpl:3|       BYTE ' + ','.join(f'>{it:02X}' for it in range(16)),
                'main.gpl:3|       BYTE >10,>11'])

    def test_end_ends_the_source_in_a_copied_file_too(self):
        self.assertEqual(self.expand(b' COPY "B"\n RTN\n', {'B': b' END\n FOO\n'}).text, b'*COPY "B"\n END\n')

    def test_macros(self):
        self.assertEqual(self.rows(b'''SAY    MACRO ROW,Col,TXT
       CALL PUTS       \\row
       DATA \\ROW*32+\\COL
       BYTE \\LEN(TXT)
       TEXT \\TXT
       ENDM
BOTH   macro T
\\T     SAY  1,2,'\\T'
       ENDM
NONE   MACRO
       ENDM
L      SAY  X+1,4,'IT''S, \\X'  a comment
       BOTH N
       none whatever
'''), ['main.gpl:12|L', "main.gpl:12|*      SAY  X+1,4,'IT''S, \\X'  a comment",
       'main.gpl:12, in SAY of main.gpl:2|       CALL PUTS       X+1',
       'main.gpl:12, in SAY of main.gpl:3|       DATA X+1*32+4',
       'main.gpl:12, in SAY of main.gpl:4|       BYTE 8',
       "main.gpl:12, in SAY of main.gpl:5|       TEXT 'IT''S, \\X'", 'main.gpl:13|*      BOTH N',
       'main.gpl:13, in BOTH of main.gpl:8|N', "main.gpl:13, in BOTH of main.gpl:8|*     SAY  1,2,'N'",
       *(f'main.gpl:13, in BOTH of main.gpl:8, in SAY of main.gpl:{number}|{text}' for number, text in [
           (2, '       CALL PUTS       1'), (3, '       DATA 1*32+2'), (4, '       BYTE 1'), (5, "       TEXT 'N'")]),
       'main.gpl:14|*      none whatever'])

    def test_conditions(self):
        source = b'''A EQU 2
B EQU A-2
       IF A/2
       BYTE 1
       IF B
       IFDEF A
       ELSE
       ENDIF
       BYTE 2
       ELSE
       BYTE 3
       ENDIF
       ELSE
       BYTE 4
       ENDIF
       IFDEF BENCH
       BYTE BENCH
       ELSE
       BYTE 5
       ENDIF
'''
        self.assertEqual(self.expand(source).text.split(b'\n')[2:-1],
                         [b'       BYTE 1', b'       BYTE 3', b'       BYTE 5'])
        self.assertEqual(self.rows(source, BENCH=7)[::4], ['-D BENCH|BENCH  EQU  7', 'main.gpl:11|       BYTE 3'])
        self.assertEqual(self.rows(source, BENCH=7)[-1], 'main.gpl:17|       BYTE BENCH')

    def test_local_labels_belong_to_the_label_before_them(self):
        made = self.expand(b'''FILL   MACRO CELL,TO
.loop  DEC  \\CELL        one .loop
       BR   .loop         and
       BR   \\TO
       ENDM
FIRST  RTN
K      EQU  3
.loop  BR   .loop         the text '.loop
.1     BYTE '.1',.1-.LOOP
       FILL @5,.loop
       FILL @6,.1
LOOP1
.a_longer_one BR .a_longer_one      .
''')
        self.assertEqual(made.text.decode(), '''FIRST  RTN
K      EQU  3
LOOP2  BR   LOOP2         the text '.loop
L1     BYTE '.1',L1-LOOP2
*      FILL @5,.loop
LOOP3  DEC  @5        one .loop
       BR   LOOP3         and
       BR   LOOP2
*      FILL @6,.1
LOOP4  DEC  @6        one .loop
       BR   LOOP4         and
       BR   L1
LOOP1
ALONG1        BR ALONG1             .
''')
        self.assertEqual({name: (label.spelled, str(label.place)) for name, label in made.names.items()}, {
            'LOOP2': ('FIRST.loop', 'main.gpl:8'), 'L1': ('FIRST.1', 'main.gpl:9'),
            'LOOP3': ('FILL.loop', 'main.gpl:10, in FILL of main.gpl:2'),
            'LOOP4': ('FILL.loop', 'main.gpl:11, in FILL of main.gpl:2'),
            'ALONG1': ('LOOP1.a_longer_one', 'main.gpl:13')})

    def test_a_macro_may_place_a_local_label_that_it_is_given(self):
        made = self.expand(b'HERE   MACRO TO\n\\TO    RTN\n       ENDM\nL      BR   .x\n       HERE .x\n')
        self.assertEqual(made.text, b'L      BR   X1\n*      HERE .x\nX1    RTN\n')
        with self.assertRaisesRegex(Refused, 'duplicate label: .x of the same label stands at main.gpl:5, in HERE'):
            self.expand(b'HERE   MACRO TO\n\\TO    RTN\n       ENDM\nL\n       HERE .x\n       HERE .x\n')

    def test_a_local_label_that_a_macro_is_given_may_stand_anywhere_in_its_lines(self):
        self.assertEqual(self.expand(b'M      MACRO A\n       BR   \\A     to \\A   \\A\n* \\A\nX\\A     \\A   5\n       ENDM\n'
                                     b'L      RTN\n.loop  M .loop\n').text.decode().splitlines(),
                         ['L      RTN', 'LOOP1', '*      M .loop', '       BR   LOOP1     to LOOP1   LOOP1', '* .loop',
                          'XLOOP1     LOOP1   5'])

    def test_a_refusal_has_local_labels_as_they_are_written(self):
        def of(line):
            source = b'M      MACRO A\n%s\n       ENDIF\n       ENDM\nL\n.loop\n       M .loop\n' % line
            return expanded('main.gpl', source, most=9)
        found = of(b'       IF   \\A').refusals
        self.assertEqual([(it.cause, it.text) for it in found], [('bad token', '       IF   .loop')])
        found = of(b'       IF   \\LEN(A)').refusals
        self.assertEqual([it.cause for it in found],
                         ['\\LEN(A) is the length of a text in quotes, and the operand is .loop'])
        self.assertEqual(of(b'       IF   1\n\\A     RTN').left_out, [(4, '.loop     RTN')])

    def test_cells(self):
        made = self.expand(b'''W      EQU  2
       CELLS >8300,>8305   the block
COUNT  CELL W            a word
       CELL 1            between
SUM    cell COUNT->82FE  another
X CELL 1 near
''')
        self.assertEqual(made.text.decode(), '''W      EQU  2
*      CELLS >8300,>8305   the block
COUNT  EQU  >8300        a word
*      CELL 1            between
SUM    EQU  >8303        another
X EQU  >8305 near
''')
        self.assertEqual(made.cells, [('COUNT', 0x8300, 2), ('SUM', 0x8303, 2), ('X', 0x8305, 1)])

    def test_made_names_are_apart(self):
        made = self.expand(b'A\n.abcdefg\n.abcdefh\n.r\nABCDE2 BR .abcdef\n.abcdef\n')
        self.assertEqual(made.text, b'A\nABCDE1\nABCDE3\nR16\nABCDE2 BR ABCDE4\nABCDE4\n')


# Sources of several files that are refused: the place, and what the cause begins with.
REFUSED = [
    ({'main.gpl': ' COPY "A"\n', 'A': '* x\n COPY "A"\n'}, 'A:2', 'copy too deep'),
    ({'main.gpl': ' COPY "A"\n', 'A': ' COPY "B"\n', 'B': ' COPY "C"\n', 'C': ' COPY "D"\n',
      'D': ' COPY "E"\n', 'E': ''}, 'D:1', 'copy too deep'),
    ({'main.gpl': ' COPY "A"\n' * 65, 'A': ''}, 'main.gpl:65', 'too many copies'),
    ({'main.gpl': ' RTN\n COPY "A"\n'}, 'main.gpl:2', 'missing A'),
    ({'main.gpl': ' COPY "sub"\n', 'sub/A': ''}, 'main.gpl:1', 'missing sub'),
    ({'main.gpl': ' COPY "sub/A"\n', 'sub/A': ''}, 'main.gpl:1', 'bad directive'),
    ({'main.gpl': ' COPY ".A"\n', '.A': ''}, 'main.gpl:1', 'bad directive'),
    ({'main.gpl': ' COPY A\n', 'A': ''}, 'main.gpl:1', 'bad directive'),
    ({'main.gpl': 'X COPY "A"\n', 'A': ''}, 'main.gpl:1', 'bad directive: COPY has no label'),
    ({'main.gpl': ' COPY "%s"\n' % ('A' * 61)}, 'main.gpl:1', 'bad directive'),
    ({'main.gpl': ' COPY "A"\n', 'A': ' ' * 262_145}, 'main.gpl:1', 'too large: A has more than 262,144 bytes'),
    ({'main.gpl': ' COPY "A"\n' * 5, 'A': '* x\n' * 65_536}, 'A:65527', 'too large'),
    ({'main.gpl': ' BIN "A"\n'}, 'main.gpl:1', 'missing A'),
    ({'main.gpl': ' IF 1\n COPY "A"\n ENDIF\n', 'A': ' ENDIF\n'}, 'A:1', 'ENDIF without IF'),
    ({'main.gpl': ' IF 1\n RTN\n IFDEF A\n ELSE\n RTN\n'}, 'main.gpl:3', 'this IF has no ENDIF'),
    ({'main.gpl': ' RTN\n IF 0\n RTN\n'}, 'main.gpl:2', 'this IF has no ENDIF'),
    ({'main.gpl': ' IF 1\n ELSE\n RTN\n'}, 'main.gpl:1', 'this IF has no ENDIF'),
    ({'main.gpl': ' ELSE\n'}, 'main.gpl:1', 'ELSE without IF'),
    ({'main.gpl': ' IF 0\n ELSE\n ELSE\n ENDIF\n'}, 'main.gpl:3', 'ELSE after another one, of the IF in main.gpl:1'),
    ({'main.gpl': ' IF 1\n ELSE\n ELSE\n ENDIF\n'}, 'main.gpl:3', 'ELSE after another one'),
    ({'main.gpl': ' IF A\n ENDIF\n'}, 'main.gpl:1', 'the value of A is not known here'),
    ({'main.gpl': ' IF $\n ENDIF\n'}, 'main.gpl:1', 'bad token'),
    ({'main.gpl': 'X IF 1\n ENDIF\n'}, 'main.gpl:1', 'bad directive: IF has no label'),
    ({'main.gpl': ' IFDEF 5\n ENDIF\n'}, 'main.gpl:1', 'bad operand: IFDEF takes a name'),
    ({'main.gpl': 'M MACRO\n RTN\n'}, 'main.gpl:1', 'this MACRO has no ENDM'),
    ({'main.gpl': 'M MACRO\nN MACRO\n ENDM\n'}, 'main.gpl:2', 'MACRO in the macro M: ENDM is missing'),
    ({'main.gpl': ' ENDM\n'}, 'main.gpl:1', 'ENDM without MACRO'),
    ({'main.gpl': ' MACRO\n'}, 'main.gpl:1', 'bad label'),
    ({'main.gpl': 'dst MACRO\n'}, 'main.gpl:1', 'DST is an operation or a directive'),
    ({'main.gpl': 'COPY MACRO\n'}, 'main.gpl:1', 'COPY is an operation or a directive'),
    ({'main.gpl': ' COPY "A"\nm MACRO\n', 'A': 'M MACRO\n ENDM\n'}, 'main.gpl:2', 'M is a macro already: A:1'),
    ({'main.gpl': 'M MACRO A,a\n'}, 'main.gpl:1', 'a parameter is named twice'),
    ({'main.gpl': 'M MACRO A,,B\n'}, 'main.gpl:1', 'an empty operand is no name of a parameter'),
    ({'main.gpl': 'M MACRO A\n BYTE \\B\n ENDM\n'}, 'main.gpl:2', '\\B names no parameter of M'),
    ({'main.gpl': 'M MACRO A\n BYTE \\A\n ENDM\n M\n'}, 'main.gpl:4', 'operand count: M takes 1, and 0 are given'),
    ({'main.gpl': 'M MACRO A\n ENDM\n M 1,2\n'}, 'main.gpl:3', 'operand count: M takes 1, and 2 are given'),
    ({'main.gpl': 'M MACRO A,B\n ENDM\n M 1,\n M 1, \n M 1, 2\n'}, 'main.gpl:5',
     'bad operand: a blank ends the operands; write none before or after a comma'),
    ({'main.gpl': 'M MACRO A\n ENDM\n M 1 a, b\n M 1 ,2\n'}, 'main.gpl:4', 'bad operand: a blank ends'),
    ({'main.gpl': 'M MACRO\n ENDM\n M a, b\n M ,a\n ENDM\n'}, 'main.gpl:5', 'ENDM without MACRO'),
    ({'main.gpl': ' M 1\n M 2\n COPY "A"\n', 'A': 'm MACRO A\n ENDM\n'}, 'main.gpl:1',
     'unknown operation: M is a macro from A:1 on'),
    ({'main.gpl': 'M MACRO\n N\n ENDM\n M\nN MACRO\n ENDM\n'}, 'main.gpl:4, in M of main.gpl:2',
     'unknown operation: N is a macro from main.gpl:5 on'),
    ({'main.gpl': 'M MACRO A\n BYTE \\LEN(A)\n ENDM\n M 5\n'}, 'main.gpl:4', '\\LEN(A) is the length of a text'),
    ({'main.gpl': 'M MACRO\n* x\n M\n ENDM\n M\n'}, 'main.gpl:5, in M of main.gpl:3', 'M uses itself'),
    ({'main.gpl': 'M MACRO\n N\n ENDM\nN MACRO\n M\n ENDM\n N\n'},
     'main.gpl:7, in N of main.gpl:5, in M of main.gpl:2', 'N uses itself'),
    ({'main.gpl': ''.join(f'M{n} MACRO\n M{n + 1}\n ENDM\n' for n in range(18)) + ' M0\n'},
     'main.gpl:55' + ''.join(f', in M{n} of main.gpl:{3 * n + 2}' for n in range(16)), 'macros too deep'),
    ({'main.gpl': 'M0 MACRO\n ENDM\n' + ''.join(f'M{n} MACRO\n' + f' M{n - 1}\n' * 99 + ' ENDM\n' for n in range(1, 5))
      + ' M4\n'}, None, 'too many uses of macros'),
    ({'main.gpl': 'M MACRO\n IF 1\n ENDM\n M\n ENDIF\n'}, 'main.gpl:4, in M of main.gpl:2', 'this IF has no ENDIF'),
    ({'main.gpl': 'L\n.x\n.X\n'}, 'main.gpl:3', 'duplicate label: .x of the same label stands at main.gpl:2'),
    ({'main.gpl': 'L\n.x\nM\n BR .x\n'}, 'main.gpl:4', 'unknown name: there is no M.x'),
    ({'main.gpl': 'X CELL 1\n'}, 'main.gpl:1', 'CELL without CELLS'),
    ({'main.gpl': ' CELLS 1\n'}, 'main.gpl:1', 'operand count: CELLS'),
    ({'main.gpl': ' CELLS 5,4\n'}, 'main.gpl:1', 'the block ends at >0004, before it begins'),
    ({'main.gpl': ' CELLS 5,7\nX CELL 2\nY CELL 2\n'}, 'main.gpl:3', 'this ends at >0008, and the block at >0007'),
    ({'main.gpl': ' CELLS 5,7\nX CELL 0\n'}, 'main.gpl:2', 'a cell has at least 1 byte'),
    ({'main.gpl': ' CELLS 5,7\nX CELL Y\n'}, 'main.gpl:2', 'the value of Y is not known here'),
]


class Refusals(Expanding):
    def test_each_refusal_has_its_place_and_its_cause(self):
        for number, (files, place, cause) in enumerate(REFUSED):
            with self.subTest(number):
                folder = self.folder / str(number)
                for name, text in files.items():
                    self.file(f'{number}/{name}', text.encode())
                with self.assertRaises(Refused) as raised:
                    expanded(str(folder / 'main.gpl'), files['main.gpl'].encode())
                found = raised.exception
                self.assertTrue(found.cause.startswith(cause), found.cause)
                self.assertIn(place, (None, str(found.place)))
                if not found.place.within:
                    line = files[found.place.file].split('\n')[found.place.number - 1]
                    self.assertEqual(found.text, line)

    def test_only_regular_files_of_the_folder_are_read(self):
        (self.folder / 'link').symlink_to(self.file('A', b' RTN\n'))
        os.mkfifo(self.folder / 'pipe')
        for name in ('link', 'pipe', 'none'):
            with self.assertRaisesRegex(Refused, f'^main.gpl:1: missing {name}$'):
                self.expand(f' COPY "{name}"\n'.encode())


class Command(Expanding):
    def test_the_source_and_the_map_are_written(self):
        self.file('sub/main.gpl', b'       IFDEF BENCH\n       COPY "B"\n       ENDIF\nL\n.x     RTN\n')
        self.file('sub/B', b'       CELLS 1,2\nC      CELL 2\n')
        ended = self.call('expand', '-D', 'bench=>10', '--map', 'map', 'sub/main.gpl')
        self.assertEqual((ended.returncode, ended.stderr), (0, b''))
        self.assertEqual(ended.stdout, b'BENCH  EQU  16\n*      COPY "B"\n*      CELLS 1,2\nC      EQU  >0001\nL\n'
                                       b'X1     RTN\n')
        self.assertEqual((self.folder / 'map').read_bytes(),
                         b'1 -D BENCH\n2 main.gpl:2\n3 B:1\n4 B:2\n5 main.gpl:4\n6 main.gpl:5\n'
                         b'name X1 L.x main.gpl:5\ncell C >0001 2\n')
        ended = self.call('expand', 'sub/main.gpl', '-o', 'out')
        self.assertEqual((ended.returncode, (self.folder / 'out').read_bytes()), (0, b'L\nX1     RTN\n'))

    def test_a_refusal_is_shown_as_editors_read_it(self):
        self.file('sub/main.gpl', b'* x\n COPY "A B"\n')
        ended = self.call('expand', 'sub/main.gpl', '-o', 'out')
        self.assertEqual((ended.returncode, ended.stdout, (self.folder / 'out').exists()), (1, b'', False))
        self.assertEqual(ended.stderr, b'sub/main.gpl:2: bad directive: the operand is the name of a file in quotes, '
                                       b'without a path\n     COPY "A B"\n')
        self.file('sub/main.gpl', b' COPY "A"\n M 1\n')
        self.file('sub/A', b'M MACRO X\n IF NONE+\\X\n ENDIF\n ENDM\n')
        self.assertEqual(self.call('expand', 'sub/main.gpl').stderr.decode(), (
            'sub/main.gpl:2: the value of NONE is not known here\n     IF NONE+1\n'
            'sub/main.gpl:2: note: in M of sub/A:2\n'))

    def test_files_and_words_that_do_not_fit(self):
        self.file('main.gpl', b' COPY "A"\n')
        self.file('A', b' RTN\n')
        kept = {name: (self.folder / name).read_bytes() for name in ('main.gpl', 'A')}
        for words, status, text in (
                (['none.gpl'], 3, 'none.gpl: No such file or directory'),
                (['main.gpl', '-o', 'A'], 2, 'A: the output would replace a file that is read'),
                (['main.gpl', '-m', 'main.gpl'], 2, 'main.gpl: the output would replace a file that is read'),
                (['main.gpl', '-D', '5'], 2, '5: no NAME or NAME=VALUE'),
                (['main.gpl', '-D', 'A=70000'], 2, 'A=70000: the value is above 65,535'),
                (['main.gpl', '-o', '/dev/full'], 3, '/dev/full: No space left on device'),
                (['main.gpl', '-m', '/dev/full'], 3, '/dev/full: No space left on device')):
            with self.subTest(words):
                ended = self.call('expand', *words)
                self.assertEqual(ended.returncode, status)
                self.assertTrue(ended.stderr.decode().rstrip().endswith(text), ended.stderr)
        self.assertEqual({name: (self.folder / name).read_bytes() for name in kept}, kept)
        with open('/dev/full', 'wb') as full:
            ended = subprocess.run([TOP / 'tools/expand', 'main.gpl'], cwd=self.folder, stdout=full,
                                   stderr=subprocess.PIPE)
        self.assertEqual((ended.returncode, ended.stderr),
                         (3, b'tools/expand: standard output: No space left on device\n'))

    def test_twenty_thousand_lines_take_little_time(self):
        """Beside the time in which the machine, as busy as it is, cuts 100,000 lines into their parts, some 0.2 s on a
        fast one."""
        cut = least_time(lambda: [parts_of.__wrapped__('L00001 ST   @>8300,>05   a comment') for _ in range(100_000)])
        plain = b''.join(b'L%05d ST   @>8300,>05   a comment\n       DADD @>8302,V@>0100(@>8304)\n* more. of it\n'
                         b'       BR   $\n' % number for number in range(5000))
        macro = b'M      MACRO CELL,TO\n.loop  DEC  \\CELL\n       BR   .loop\n       BR   \\TO\n       ENDM\n'
        dense = macro + b''.join(
            b'L%05d ST   @>8300,>05   a comment\n.loop  DADD @>8302,V@>0100(@>8304)   more\n       M    @>8300,.loop\n'
            b'       BR   .loop\n' % number for number in range(2857))
        for source, most, lines in ((plain, 0.5, 20_000), (dense, 1.4, 19_999)):
            self.assertEqual(self.expand(source).text.count(b'\n'), lines)
            self.assertLess(least_time(lambda: self.anew(source)), most * cut)
        self.assertEqual(self.expand(plain).text, plain)
