"""Tests of tests/rows."""
import os
import subprocess
import sys
import unittest

from calling import TOP, Calling
from lib import command, program

sys.path.append(str(TOP / 'tests/rows'))

import table

GOOD = r'''# A table.

% two files
# a remark
$ ti_debug list '' A
<  COPY "A"
<
<- END\n\x41
@ A
+ RT
@ B-2.SRC
? Refused
> one
>-two
...
~ e\nt
e line 1: \x5C
'''
WRONG = [
    ('%\n$ ti_bench asm\n! take 0\n', 'a:3: the mark ! is unknown'),
    ('% only a title\n> one\n', 'a:1: a row without words'),
    ('%\n$ asm\n', 'a:2: the first word of a run is ti_bench or ti_debug'),
    ('%\n$ ti_bench asm\n$\n', 'a:3: the first word of a run is ti_bench or ti_debug'),
    ('<  RT\n%\n$ ti_bench asm\n', 'a:1: a line before the first row'),
    ('%\n$ ti_bench asm\n? Refuse\n', 'a:3: no status Refuse'),
    ('%\n$ ti_bench asm\n@ ../A\n', 'a:3: no name of a file'),
    ('%\n$ ti_bench asm\n@ A\n@ A\n', 'a:4: no name of a file, or one that was there before'),
    ('%\n$ ti_bench asm\n+ RT\n', 'a:3: a line of no file'),
    ('%\n$ ti_bench asm\n<RT\n', 'a:3: after the mark comes a blank or -'),
    ('%\n$ ti_bench asm\n<*0 RT\n', 'a:3: after the mark comes a blank or -'),
    ('%\n$ ti_bench asm\n<*2\t\n', 'a:3: after the mark comes a blank or -'),
    ('%\n$ ti_bench asm\n....\n', 'a:3: more is ...'),
    ('%\n$ ti_bench asm\n~ \n', 'a:3: an empty part'),
    ('%\n$ ti_bench asm\n< \\t\n', r'a:3: after \ comes n, or x and two hexadecimal digits'),
    ('%\n$ ti_bench asm\n< \xe9\n', 'a:3: a character that is not of ASCII'),
]
RUNS = '''% a file of the folder
$ ti_bench asm
<  COPY "A"
@ A
+  FOO
? Refused
e A line 1: unknown operation

% another status
$ ti_bench gasm
<  RTN
? Refused
>-\\x00
'''

ANEW = '''# A table.

% as it says
$ ti_bench gasm

% another status, with a remark
$ ti_bench gasm
<  RTN
? Refused
e what
# a remark

% it has no such part
$ ti_bench gasm
<  EXIT
...
~ \\x01
% the first lines, and a part
$ ti_bench run 1
< S EXIT
<  END S
> a
...
~ count

% a fault line, by two runs
$ ti_bench gasm
$ ti_bench run 1
<  FOO
> x
% runs that do not end alike
$ ti_bench gasm
$ ti_bench run 1
<  EXIT
'''
WRITTEN = ANEW.replace('''? Refused
e what
# a remark
''', '''# a remark
>-\\x00
''').replace('> a\n', '> exit at >6000\n').replace('> x\n', '? Refused\ne line 1: unknown operation\n')


class Tables(unittest.TestCase):
    def test_a_row_has_its_run_and_how_it_must_end(self):
        row, = table.rows(GOOD, 'a')
        self.assertEqual((row.place, row.title, row.words), ('a:3', 'two files', ['ti_debug', 'list', '', 'A']))
        self.assertEqual(row.given, b' COPY "A"\n\n END\nA')
        self.assertEqual(row.files, {'A': b'RT\n', 'B-2.SRC': b''})
        self.assertEqual((row.status, row.out, row.more, row.parts), ('Refused', b'one\ntwo', True, [b'e\nt']))
        self.assertEqual(row.err, b'line 1: \\\n')

    def test_lines_of_words_are_runs_that_end_alike(self):
        found = table.rows('%\n$ ti_bench asm\n$ ti_debug list\n? Refused\n% other\n$ ti_bench gasm\n', 'a')
        self.assertEqual([(row.place, row.words, row.status) for row in found],
                         [('a:1', ['ti_bench', 'asm'], 'Refused'), ('a:1', ['ti_debug', 'list'], 'Refused'),
                          ('a:5', ['ti_bench', 'gasm'], 'Done')])

    def test_a_line_comes_as_often_as_its_row_says(self):
        row, = table.rows('%\n$ ti_bench gasm\n<*3  RTN\n<*2-\\n;\n@ A\n+*2 B\n>*300-\\x00\n', 'a')
        self.assertEqual((row.given, row.files, row.out), (3 * b' RTN\n' + b'\n;\n;', {'A': b'B\nB\n'}, bytes(300)))

    def test_a_wrong_line_is_named(self):
        for text, said in WRONG:
            with self.assertRaises(command.Stopped, msg=text) as stopped:
                table.rows(text, 'a')
            self.assertTrue(stopped.exception.text.startswith(said), stopped.exception.text)

    def test_bytes_come_back_from_the_lines_that_stand_for_them(self):
        for data in (b'', b'\n', b'a\n\nb', b'-a \n', b'\\n\r\t\x00\xff\n~', bytes(range(256))):
            lines = table.marked('>', data)
            self.assertEqual(b''.join(table.line_of(line[1:]) for line in lines), data)
            self.assertTrue(all(line.isascii() and line.isprintable() for line in lines), lines)

    def test_a_run_passes_if_it_ends_as_its_row_says(self):
        row, = table.rows(GOOD, 'a')
        out, more, err = b'one\ntwo', b'one\ntwo\n.', b'line 1: \\\n'
        ends = [(1, out, err), (1, more, err), (0, out, err), (1, out, b''), (1, b'one\n', err)]
        self.assertEqual([row.passes(program.Run(*end)) for end in ends], [True, True, False, False, False])
        row.parts = [b'three']
        self.assertFalse(row.passes(program.Run(1, out, err)))
        row.more, row.parts = False, []
        self.assertEqual([row.passes(program.Run(*end)) for end in ends[:2]], [True, False])


class Runs(Calling):
    def test_a_row_that_fails_is_shown(self):
        path = self.file('some.txt', RUNS.encode())
        ended = subprocess.run([TOP / 'tests/rows/run', os.environ['TI_BENCH'], path], capture_output=True)
        shown = [f'FAILED {path}:9: another status', '$ ti_bench gasm', 'wanted', '? Refused', r'>-\x00',
                 'came', '? Done', r'>-\x00', '1 rows passed, 1 failed']
        self.assertEqual((ended.returncode, ended.stdout.decode().splitlines(), ended.stderr), (1, shown, b''))

    def test_what_came_is_written_into_a_row_that_fails(self):
        path = self.file('some.txt', ANEW.encode())
        run = [TOP / 'tests/rows/run', '--write', os.environ['TI_BENCH'], path]
        ended = subprocess.run(run, capture_output=True)
        titles = ['6: another status, with a remark', '18: the first lines, and a part', '26: a fault line, by two runs']
        self.assertEqual(ended.stdout.decode().splitlines()[:3], [f'written anew: {path}:{title}' for title in titles])
        self.assertEqual((ended.returncode, ended.stdout.splitlines()[-1]), (1, b'5 rows passed, 3 failed'))
        self.assertEqual(path.read_text(), WRITTEN)
        self.assertEqual(subprocess.run(run, capture_output=True).returncode, 1)
        self.assertEqual(path.read_text(), WRITTEN)

    def test_a_table_of_no_rows_does_not_pass(self):
        path = self.file('none.txt', b'# no rows\n')
        ended = subprocess.run([TOP / 'tests/rows/run', os.environ['TI_BENCH'], path], capture_output=True)
        self.assertEqual((ended.returncode, ended.stdout), (1, b'0 rows passed, 0 failed\n'))


if __name__ == '__main__':
    unittest.main()
