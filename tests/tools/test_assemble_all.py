"""Tests of tools/assemble --all: each refused line, and what may come of another one."""
import unittest

from calling import Calling


class AllRefusals(Calling):
    SOURCE = (b'COUNT EQU UNDEF\nSUM EQU >8302\nSTART ST @COUNT, 3\nLOOP DEC @COUNT\n FOO @SUM\n BR LOOP\n BYTE 300\n'
              b' EXIT\nSTART RTN\n END START\n')

    def test_each_refused_line_is_reported_once(self):
        self.file('a.gpl', self.SOURCE)
        one, every = self.call('assemble', 'a.gpl'), self.call('assemble', '--all', 'a.gpl', '-o', 'out')
        self.assertEqual((every.returncode, every.stdout, (self.folder / 'out').exists()), (1, b'', False))
        self.assertTrue(every.stderr.startswith(one.stderr))
        rows = [row for row in every.stderr.splitlines() if row.startswith(b'a.gpl:') and b'note' not in row]
        self.assertEqual(rows, [b'a.gpl:1: unknown name', b'a.gpl:3: bad operand', b'a.gpl:4: unknown name',
                                b'a.gpl:5: unknown operation', b'a.gpl:9: duplicate label', b'a.gpl:7: bad operand'])

    def test_what_may_come_of_a_line_that_is_left_out_is_marked(self):
        self.file('a.gpl', self.SOURCE)
        notes_of = [row for row in self.call('assemble', '--all', 'a.gpl').stderr.splitlines() if b'may come' in row]
        self.assertEqual(notes_of, [b'a.gpl:4: note: this may come of line 1, which is left out'])

    def test_a_label_is_kept_where_its_line_is_left_out(self):
        self.file('a.a', b'LOOP FOO\n JMP LOOP\n END\n')
        rows = self.call('assemble', '--all', 'a.a').stderr.splitlines()
        self.assertEqual(rows, [b'a.a:1: unknown operation', b'    LOOP FOO'])

    def test_at_most_twenty_are_reported(self):
        self.file('a.gpl', b' FOO\n' * 50)
        rows = self.call('assemble', '--all', 'a.gpl').stderr.splitlines()
        self.assertEqual(sum(b'unknown operation' in row for row in rows), 20)

    def rows_of(self, name):
        return [row for row in self.call('assemble', '--all', name).stderr.decode().splitlines() if row[:1] != ' ']

    def test_refused_lines_of_copied_files_are_reported_as_well(self):
        self.file('sub/a.a', b' FOO\n COPY "B.A"\n BAR\n JMP L9\n END\n')
        texts = {'B.A': b' BAZ\n LI R1,Q\n COPY "C.A"\nK DATA 1\n', 'C.A': b' LI R99\nL9 EQU UUU\n'}
        for name, text in texts.items():
            self.file(f'sub/{name}', text)
        self.assertEqual(self.rows_of('sub/a.a'), [
            'sub/a.a:1: unknown operation', 'sub/B.A:1: unknown operation', 'sub/C.A:1: operand count',
            'sub/C.A:2: unknown name', 'sub/a.a:3: unknown operation', 'sub/B.A:2: unknown name',
            'sub/a.a:4: unknown name', 'sub/a.a:4: note: this may come of line 2 of C.A, which is left out'])
        self.assertEqual({name: (self.folder / 'sub' / name).read_bytes() for name in texts}, texts)
        self.assertEqual(len(list((self.folder / 'sub').iterdir())), 3)

    def test_what_a_copy_line_that_is_left_out_may_bring_is_marked(self):
        self.file('a.a', b' COPY "NO"\n DATA B\n FOO B\n')
        self.assertEqual(self.rows_of('a.a'), [
            'a.a:1: missing NO', 'a.a:3: unknown operation', 'a.a:2: unknown name',
            'a.a:2: note: this may come of line 1, which is left out'])
        self.file('b.a', b' COPY "B.A"\n DATA X\n')
        self.file('B.A', b' COPY "NO"\n DATA Y\n')
        self.assertEqual(self.rows_of('b.a'), [
            'B.A:1: missing NO', 'B.A:2: unknown name', 'B.A:2: note: this may come of line 1, which is left out',
            'b.a:2: unknown name', 'b.a:2: note: this may come of line 1 of B.A, which is left out'])

    def test_refusals_of_the_expansion_and_of_the_program_are_reported(self):
        self.file('part.gpl', b' FOO\nX      CELL 0\n B .no\n')
        self.file('a.gpl', b"""SAY    MACRO A
       ST   @>8300,\\A,\\B
       ENDM
1X     MACRO
       ENDM
S      SAY  1,2
       IF   LATER
       COPY "part.gpl"
       ELSE
 BAZ
       ENDIF
 COPY "none.gpl"
 ENDIF
 CELLS >8300
CELL1  CELL 1
       1X
       ST   @CELL1,1
       ST   @UNKNWN,1
 BAR
""")
        self.assertEqual(self.rows_of('a.gpl'), [
            'a.gpl:2: \\B names no parameter of SAY',
            'a.gpl:4: bad label: before MACRO stands the name of the macro',
            'a.gpl:6: operand count: SAY takes 1, and 2 are given',
            'a.gpl:7: the value of LATER is not known here',
            'part.gpl:2: CELL without CELLS',
            'a.gpl:12: missing none.gpl',
            'a.gpl:13: ENDIF without IF',
            'a.gpl:14: operand count: CELLS takes the first and the last address of a block',
            'part.gpl:3: unknown name: there is no S.no',
            'part.gpl:1: unknown operation',
            'part.gpl:1: note: this may come of a.gpl:12, which is left out',
            'a.gpl:16: unknown operation',
            'a.gpl:16: note: this may come of a.gpl:12, which is left out',
            'a.gpl:18: unknown name',
            'a.gpl:18: note: this may come of a.gpl:6, which is left out',
            'a.gpl:19: unknown operation',
            'a.gpl:19: note: this may come of a.gpl:12, which is left out'])

    def test_refusals_of_the_expansion_of_an_assembler_source_are_reported(self):
        self.file('part.a', b'SAY    MACRO A\n       LI   R1,\\A,\\B\n       ENDM\n       BAR\n')
        self.file('a.a', b''' COPY "part.a"
START  SAY  1,2
       COPY "none.a"
       JNE  .no
       ABC  1
       LI   R2,UNKNWN
       END  START
''')
        self.assertEqual(self.rows_of('a.a'), [
            'part.a:2: \\B names no parameter of SAY',
            'a.a:2: operand count: SAY takes 1, and 2 are given',
            'a.a:3: missing none.a',
            'a.a:4: unknown name: there is no START.no',
            'part.a:4: unknown operation',
            'part.a:4: note: this may come of a.a:3, which is left out',
            'a.a:5: unknown operation',
            'a.a:5: note: this may come of a.a:3, which is left out',
            'a.a:6: unknown name',
            'a.a:6: note: this may come of a.a:2, which is left out'])

    def test_each_refusal_of_an_expansion_goes_on_with_the_line_after_it(self):
        for text, rows in (
                (b'A MACRO\nBB MACRO\n EXIT\n ENDM\n BB\n FOO\n', ['2: MACRO in the macro A: ENDM is missing', '6: u']),
                (b'A MACRO 1\n ENDM\n FOO\n', ['1: 1 is no name of a parameter', '3: u']),
                (b'A MACRO\n EXIT\n FOO\n', ['1: this MACRO has no ENDM']),
                (b'A MACRO\n ENDM\nAA MACRO A,\n ENDM\n AA\n', [
                    '3: an empty operand is no name of a parameter', '5: unknown operation']),
                (b' EXIT\n COPY "part.gpl"\n AA\n', [
                    None, '3: unknown operation', '3: note: this may come of part.gpl:2, which is left out']),
                (b' A\n FOO\nA MACRO\n ENDM\n A\n', ['1: unknown operation: A is a macro', '2: unknown operation']),
                (b' IF 0\n FOO\n IF 1\n', ['1: this IF has no ENDIF']),
                (b' IFDEF 1\n FOO\n ELSE\n BAR\n ENDIF\n', ['1: bad operand: IFDEF', '4: u']),
                (b'X IF 1\n FOO\n ENDIF\n', ['1: bad directive: IF has no label', '2: u']),
                (b'X BIN "none"\n DATA X\n', [
                    '1: missing none', '2: unknown name', '2: note: this may come of a.gpl:1']),
                (b'.a EQU 1\n.a EQU 2\n FOO\n', ['2: duplicate label', '3: u']),
                (b' ENDM\n EXIT\n END >6000\n', ['1: ENDM without MACRO'])):
            self.file('part.gpl', b'*\nAA MACRO\n EXIT\n')
            self.file('a.gpl', text)
            found = self.rows_of('a.gpl')
            self.assertEqual(len(found), len(rows), (text, found))
            for row, begin in zip(found, rows):
                self.assertTrue(row.startswith(f'a.gpl:{begin}' if begin else 'part.gpl:2: this MACRO'), (text, found))
            self.assertEqual(self.call('assemble', '--all', '-o', 'out', 'a.gpl').returncode, 1)
            self.assertFalse((self.folder / 'out').exists())
        self.file('a.gpl', b' ENDM\n' * 15 + b' FOO\n' * 15)
        rows = self.rows_of('a.gpl')
        self.assertEqual([sum(word in row for row in rows) for word in ('ENDM', 'operation')], [15, 5])
        self.file('a.gpl', b' ENDM\n' * 50)
        self.assertEqual(len(self.rows_of('a.gpl')), 20)

    def test_what_an_operand_begins_with_is_no_name(self):
        for line, is_doubted in ((b' ST V@FOO,1', False), (b' ST V*FOO,1', False), (b' ST @V,1', True),
                                 (b' ST @FOO,V*2', False), (b' ST @FOO+V,2', True),
                                 (b' MOVE 1,V@FOO,V@0', False), (b' MOVE 1,V@0,G@V', True)):
            self.file('a.gpl', b'V EQU LOPP\nS' + line + b'\n')
            rows = self.rows_of('a.gpl')
            self.assertEqual(rows[:2], ['a.gpl:1: unknown name', 'a.gpl:2: unknown name'], line)
            doubts = ['a.gpl:2: note: this may come of line 1, which is left out'] if is_doubted else []
            self.assertEqual(rows[2:], doubts, line)
        self.file('a.a', b'V EQU LOPP\n DATA V*2\n')
        self.assertEqual(self.rows_of('a.a')[2:], ['a.a:2: note: this may come of line 1, which is left out'])

    def test_one_without_a_line_is_reported_as_ever(self):
        self.file('a.a', b'* x\n' * 300_000)
        ended = self.call('assemble', '--all', 'a.a')
        self.assertEqual((ended.returncode, ended.stderr), (1, b'a.a: too large\n'))


if __name__ == '__main__':
    unittest.main()
