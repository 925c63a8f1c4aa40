"""Tests of the warnings of tools/assemble: each with lines that have it and lines that do not, against the program."""
import os
import random
import re

from calling import TOP, Calling
from expanding.author import source_of
from lib import program
from lib.languages import GPL, OPERATIONS
from lying import liar
from stepping.listing import listing_of
from warning import condition, stops
from warning.code import Code
from warning.report import NAMES, warnings_of
from warning_cases import CASES

HEAD = b'A      EQU  >8300\nW      EQU  >8302\n'
# a source that a document shows
SHOWN = re.compile(r"^    \$ cat > (\w+\.gpl) <<'EOF'\n(.*?)^    EOF\n", re.M | re.S)
# the warnings of the source in docs/USE.md that shows them
DOUBTS = [(b'doubts.gpl', b'4', b'again'), (b'doubts.gpl', b'8', b'unreached'), (b'doubts.gpl', b'9', b'stop'),
          (b'doubts.gpl', b'10', b'cond'), (b'doubts.gpl', b'11', b'data')]
# The operands of the operations that the profile has of each kind.
FORMS = {'': 'H GT CARRY OVF', '1': 'RAND BACK ALL', '@A': 'ABS NEG INV CLR CZ INC DEC INCT DECT FETCH PUSH',
         '@A,@W': 'ADD SUB MUL DIV AND OR XOR ST CH CHE CGT CGE CEQ CLOG SRA SLL SRL SRC EX', '1,@A,@W': 'MOVE'}


class Warnings(Calling):
    def setUp(self):
        super().setUp()
        self.bench = program.program()

    def rows(self, text):
        """The warnings of a source: lines, names and texts."""
        ended = self.bench.run('gasm', given=text)
        self.assertEqual(ended.fault, '')
        rows = [row.decode() for row in warnings_of(self.bench, source_of('a.gpl', text), ended.out)]
        return [re.fullmatch(r'a\.gpl:([0-9]+): warning: (.*) \[([a-z]+)\]', row).groups() for row in rows
                if not row.startswith('    ')]

    def names(self, lines):
        source = HEAD + b'START ' + lines.lstrip().encode() if lines.startswith('START') else (
            HEAD + b'START' + lines.encode())
        return {name for _, _, name in self.rows(source + b'\n END START\n')}

    def test_each_warning_has_lines_with_it_and_lines_without(self):
        self.assertEqual({name for name, _, _ in CASES}, {*NAMES} - {'overlap'})
        for name, certain, near in CASES:
            for lines in certain:
                with self.subTest(lines):
                    self.assertIn(name, self.names(lines))
            for lines in near:
                with self.subTest(lines):
                    self.assertNotIn(name, self.names(lines))

    def test_texts_and_lines(self):
        self.assertEqual(self.rows(HEAD + b'START DEC @A\n CZ @A\n BR START\n BS START\n DST @>83C1,1\n BYTE 1\n EXIT\n'
                                   b' ST @A,1\n END START\n'), [
            ('4', 'DEC has set COND as CZ does', 'again'), ('6', 'BS never branches: COND is 0 here', 'cond'),
            ('7', 'DST runs into the data of line 8', 'data'),
            ('7', 'a run stops here by reason 2: 2 bytes at >83C1 are not visible', 'stop'),
            ('10', 'nothing reaches this line: EXIT before it goes on elsewhere', 'unreached')])

    def code(self, source):
        debugger = program.Program(program.other(self.bench.path, 'ti_debug'))
        listing = listing_of(debugger.run('glist', given=source).out)
        return Code(self.bench, listing, self.bench.run('gasm', given=source).out)

    def test_the_program_stops_exactly_where_a_warning_says_so(self):
        places = ['@>8300', '@>837C', '@>83C0', '@>83C1', '@>83C2', '@>82FF', '@>0000', 'V@>3FFF', '*>83C1', '*>837C',
                  '*>8310', 'V*>83C0', 'V@0(@>83C1)', 'V@0(@>83C0)']
        chosen = random.Random(1)
        two = FORMS['@A,@W'].split()
        lines = [f'{chosen.choice(["", "D"])}{chosen.choice(two)} {place},{chosen.choice(places)}' for place in places]
        for length in ('0', '1', '2', '8', '195', '16385', '@>83C1', '@>83C0'):
            target, source = chosen.choice([*places, 'R@0', 'R@8']), chosen.choice(places)
            lines.append(f'MOVE {length},{target},{"G@0" if target[0] == "R" else source}')
        lines += ['MOVE 1,R@8,G@0', 'MOVE 8,R@0,G@0']
        code = self.code(''.join(f' {line}\n' for line in lines).encode())
        reasons = set()
        for statement, line in zip(code.in_order(), lines):
            ended = self.bench.run('run', '1', given=f' {line}\n END >6000\n'.encode())
            stopped = re.match(rb'stop ([1-5]) at', ended.out)
            found = stops.reason_of(statement)
            self.assertEqual(found and found[0], stopped and int(stopped[1]), line)
            reasons.add(found and found[0])
        self.assertEqual(reasons, {None, 2, 4, 5})

    def status(self, lines):
        """COND after each line, once after a line that sets it and once after one that clears it."""
        text = ''.join(f' CZ @>8310\n {line}\n CEQ @>8310,1\n {line}\n' for line in lines)
        ended = self.bench.run('trace', str(4 * len(lines)), given=f'{HEAD.decode()}{text} EXIT\n END >6000\n'.encode())
        self.assertEqual(ended.status, 0)
        before = [int(status, 16) >> 5 & 1 for status in re.findall(rb'(?m)^(?: *[0-9]+|gpl) >.... S(..)', ended.out)]
        return list(zip(before[2::4], before[4::4]))

    def test_the_program_does_with_cond_what_is_said_of_each_operation(self):
        names = [(name, operands) for operands, operations in FORMS.items() for operation in operations.split()
                 for name in (operation, f'D{operation}') if name in OPERATIONS[GPL]]
        lines = [f'{name} {operands}' for name, operands in names]
        lines += [f'{name} @A,@A' for name, _ in names if name.removeprefix('D') in condition.REFLEXIVE]
        statements = self.code(HEAD + ''.join(f' {line}\n' for line in lines).encode()).in_order()
        for line, statement, found in zip(lines, statements, self.status(lines)):
            after = condition.after(statement, condition.Cond.OPEN)
            self.assertEqual(found, {condition.Cond.OPEN: (1, 0), condition.Cond.ONE: (1, 1)}.get(after, found), line)
        self.assertEqual(OPERATIONS[GPL] - {name for name, _ in names},
                         {*condition.ENDING, 'BR', 'BS', 'CALL', 'CASE', 'DCASE'})


    def test_the_program_does_after_an_operation_as_cz_would(self):
        lines = []
        for name in sorted(condition.BY_RESULT):
            operands = '@A,@>8310' if name in FORMS['@A,@W'].split() else '@A'
            lines += [f'{d}ST @A,{number}\n {d}{name} {operands}\n {d}CZ @A'
                      for d in ('', 'D') for number in (0, 1, 2, 255)]
        source = HEAD.decode() + ''.join(f' {line}\n' for line in lines) + ' EXIT\n END >6000\n'
        ended = self.bench.run('trace', '1000', given=source.encode())
        status = [int(it, 16) >> 5 & 1 for it in re.findall(rb'(?m)^(?: *[0-9]+|gpl) >.... S(..)', ended.out)]
        self.assertEqual((ended.status, status[2::3]), (0, status[3::3]))
        self.assertEqual(set(status[2::3]), {0, 1})


class Sources(Calling):
    """The sources of the repository."""

    def warned(self, path, *words):
        ended = self.call('assemble', '--warn', '--gpl', '-o', '/dev/null', *words, path)
        self.assertEqual(ended.returncode, 0, ended.stderr)
        return re.findall(rb'([a-z.]+):([0-9]+): warning: .* \[([a-z]+)\]\n', ended.stderr)

    def test_no_source_of_the_repository_has_a_warning_but_those_that_are_meant(self):
        found = {}
        for words in sorted((TOP / 'examples').glob('*/words')):
            if words.read_text().split()[0] in ('gasm', 'run', 'trace', 'watch', 'glist', 'gsteps'):
                if rows := self.warned(words.parent / 'input'):
                    found[words.parent.name] = [row[1:] for row in rows]
        # what their comments explain: a CZ after DEC, and a line that is passed over
        self.assertEqual(found, {**dict.fromkeys(['cartridge', 'show', 'watch', 'watch_no_hit'], [(b'15', b'again')]),
                                 'first_steps': [(b'7', b'unreached')]})
        for define in ((), ('-D', 'BENCH')):
            self.assertEqual(self.warned(TOP / 'examples/lights/lights.gpl', *define), [])

    def test_no_source_of_the_documents_has_a_warning_but_those_that_are_meant(self):
        found, count = [], 0
        for path in sorted((TOP / 'docs').glob('*.md')):
            for name, text in SHOWN.findall(path.read_text()):
                self.file(name, re.sub('(?m)^    ', '', text).encode())
                found += self.warned(name)
                count += 1
        self.assertGreater(count, 9)
        self.assertEqual(found, [(b'stops.gpl', b'3', b'stop'), *DOUBTS])

    def test_faults_in_a_cartridge_of_several_files_are_found(self):
        lights = TOP / 'examples/lights'
        for file, old, new, wanted in (
                ('title.gpl', b'       RTN\n* the colours', b'* the colours', (b'title.gpl', b'20', b'data')),
                ('digits.gpl', b'       RTN\n', b'       RTN\n       CLR  @KEY\n',
                 (b'digits.gpl', b'24', b'unreached')),
                ('cells.gpl', b'SHAPE  CELL 1', b'       CELLS >8340,>8350\nSHAPE  CELL 1',
                 (b'cells.gpl', b'17', b'overlap')),
                ('macros.gpl', b'       DEC  \\CELL\n', b'       DEC  \\CELL\n       CZ   \\CELL\n',
                 (b'board.gpl', b'44', b'again')),
                ('board.gpl', b'ST   @KEY,\'1\'', b'ST   @KEY+>80,\'1\'', (b'board.gpl', b'57', b'stop')),
                ('digits.gpl', b'COUNT  ST   @NUMBER+1,@MOVES\n', b'COUNT  ST   @NUMBER+1,@MOVES\n       BS   .two\n',
                 (b'digits.gpl', b'10', b'cond'))):
            for path in lights.glob('*.gpl'):
                self.file(path.name, path.read_bytes())
            self.assertIn(old, (lights / file).read_bytes())
            self.file(file, (lights / file).read_bytes().replace(old, new, 1))
            self.assertIn(wanted, self.warned('lights.gpl', '-D', 'BENCH'), file)


class Command(Calling):
    SOURCE = (b'M      MACRO CELL\n       DEC  \\CELL\n       CZ   \\CELL          %s\n       ENDM\n'
              b'S      M    @>8300      %s\n       M    @>8301\n       EXIT\n       RTN          %s\n       END  S\n')

    def warned(self, *marks):
        self.file('a.gpl', self.SOURCE % (*marks, *[b''] * (3 - len(marks))))
        ended = self.call('assemble', '--warn', 'a.gpl')
        self.assertEqual((ended.returncode, bool(ended.stdout)), (0, True))
        return [row for row in ended.stderr.decode().split('\n') if ': ' in row]

    def test_a_warning_has_the_author_s_place_and_line(self):
        self.assertEqual(self.warned(), [
            'a.gpl:5: warning: DEC has set COND as CZ does [again]', 'a.gpl:5: note: in M of a.gpl:3',
            'a.gpl:6: warning: DEC has set COND as CZ does [again]', 'a.gpl:6: note: in M of a.gpl:3',
            'a.gpl:8: warning: nothing reaches this line: EXIT before it goes on elsewhere [unreached]'])

    def test_marks(self):
        last = 'a.gpl:8: warning: nothing reaches this line: EXIT before it goes on elsewhere [unreached]'
        self.assertEqual(self.warned(b'[ok again]'), [last])
        self.assertEqual(self.warned(b'', b'[ok again]')[2:], [last])
        self.assertEqual(self.warned(b'', b'[ok again]')[0], 'a.gpl:6: warning: DEC has set COND as CZ does [again]')
        self.assertEqual(self.warned(b'[ok again]', b'', b'of old, [ok unreached]'), [])
        self.assertEqual(self.warned(b'[ok again] [ok data]', b'', b'[ok unreached] [ok  nothing]'), [
            'a.gpl:5: warning: there is no warning data here [mark]', 'a.gpl:5: note: in M of a.gpl:3'])
        self.assertEqual(self.warned(b'[ok again]', b'[ok stops]', b'[ok unreached]'),
                         ['a.gpl:5: warning: no warning has the name stops [mark]'])
        self.file('a.gpl', b"* [ok data]\nS TEXT '[ok data]'  it's [ok again] \n BYTE 1 [ok data]\n END S\n")
        self.assertEqual(re.findall(b'(.*) \\[mark', self.call('assemble', '--warn', 'a.gpl').stderr), [
            b'a.gpl:2: warning: there is no warning again here', b'a.gpl:3: warning: there is no warning data here'])

    def test_strict_writes_nothing_if_there_is_a_warning(self):
        self.warned()
        out = self.file('out', b'old')
        ended = self.call('assemble', '--strict', '-o', 'out', 'a.gpl')
        self.assertEqual((ended.returncode, out.read_bytes(), ended.stderr.count(b'warning')), (1, b'old', 3))
        self.assertEqual(self.call('assemble', '-o', 'out', 'a.gpl').stderr, b'')
        self.assertEqual(self.call('assemble', '--warn', '-o', '/dev/full', 'a.gpl').returncode, 3)
        self.warned(b'[ok again]', b'', b'[ok unreached]')
        ended = self.call('assemble', '--strict', '-o', 'out', 'a.gpl')
        self.assertEqual((ended.returncode, ended.stderr, out.read_bytes()[:1]), (0, b'', b'\x92'))

    def test_sources_without_warnings(self):
        for data in (b'', b'* x\n', b' END\n', b' GROM >8000\n AORG >1FFE\n BR $\n GROM >E000\n AORG >1FFE\n BR $\n'):
            self.file('a.gpl', data)
            ended = self.call('assemble', '--warn', 'a.gpl')
            self.assertEqual((ended.returncode, ended.stderr), (0, b''), data)
        self.file('a.gpl', b' FOO\n')
        self.assertEqual(self.call('assemble', '--warn', 'a.gpl').stderr, b'a.gpl:1: unknown operation\n     FOO\n')
        self.file('a.a', b' RT\n')
        for option in ('--warn', '--strict'):
            self.assertEqual(self.call('assemble', option, 'a.a').returncode, 2)

    def test_a_program_that_lies_gets_no_warnings_and_no_output(self):
        self.file('a.gpl', b'S DEC @>8300\n CZ @>8300\n EXIT\n BYTE 8,9\n END S\n')
        self.file('out', b'old')
        bench = program.program().path
        debugger = program.other(bench, 'ti_debug')
        listed = 'the program does not list the instructions that it has assembled'
        for command, pattern, new, status, text in (
                ('gdis', rb'DEC @>8300', b'DEC @>8301', None, listed), ('gdis', rb'^ *EXIT\n', b'', None, listed),
                ('gdis', rb'BYTE >08', b'BYTE >09', None, listed),
                ('glist', rb' >6000 92', b' >6000 93', None, 'the bytes of the lines are not those'),
                ('glist', b'', b'', 5, 'the program ended with status 5'),
                ('gasm', rb'\A\x92', b'\x93', None, 'the bytes')):
            environment = {'TI_BENCH': bench, 'TI_DEBUG': debugger}
            which = 'TI_DEBUG' if command == 'glist' else 'TI_BENCH'
            environment[which] = liar(self.folder, environment[which], command, pattern, new, status)
            ended = self.call('assemble', '--warn', '-o', 'out', 'a.gpl', **environment)
            self.assertIn(text, ended.stderr.decode(), command)
            self.assertNotEqual(ended.returncode, 0)
            self.assertEqual((self.folder / 'out').read_bytes(), b'old')
