"""Tests of tools/assemble."""
import os
import subprocess
import unittest

from calling import TOOLS, TOP, Calling
from editing import names
from lib import languages, notes, refusals

ACCEPTED = b' ST @>8300,5\n EXIT\n'
IMAGE = bytes.fromhex('BE 00 05 0B')
# The end of a source's name, its last line, the cause and the note.
NOTES = [
    ('gpl', b'\xef\xbb\xbf* x', 'bad label', 'the line begins with a byte order mark; save the file without one'),
    ('gpl', b'\xff\xfe*\0', 'bad label', 'the line begins with the mark of UTF-16; save the file as plain text'),
    ('gpl', b'; x', 'bad label', 'a comment line begins with *'),
    ('a', b'LOOP: NOP', 'bad label', 'a label has no colon'),
    ('a', b'LONGNAME NOP', 'bad label', 'a name has at most six letters and digits, and LONGNAME has 8'),
    ('a', b'A_B NOP', 'bad label', 'a name has letters and digits alone, and no _'),
    ('a', b'1AB NOP', 'bad label', 'a name begins with a letter'),
    ('gpl', b'DATA 1,2', 'unknown operation',
     'what begins in column 1 is a label, so the operation of this line is 1,2'),
    ('a', b'MOV R1,R2', 'unknown operation',
     'what begins in column 1 is a label, so the operation of this line is R1,R2'),
    ('gpl', b' scan', 'unknown operation', 'SCAN is an operation of GPL that is left out here'),
    ('gpl', b' EXEC 5', 'unknown operation', 'EXEC is an operation of GPL that is left out here'),
    ('a', b' SCAN', 'unknown operation', 'SCAN is an operation of GPL, and this is an assembler source'),
    ('a', b'S dst @A,5', 'unknown operation', 'DST is an operation of GPL, and this is an assembler source'),
    ('a', b' GROM >6000', 'unknown operation', 'GROM is a directive of a GPL source, and this is an assembler source'),
    ('gpl', b' LI R1,5', 'unknown operation', 'LI is an operation of the TMS9900, and this is a GPL source'),
    ('gpl', b' EVEN', 'unknown operation', 'EVEN is a directive of an assembler source, and this is a GPL source'),
    ('gpl', b' REF A', 'unknown operation', 'REF is a directive of an assembler source, and this is a GPL source'),
    ('gpl', b' ST VDP@>0021,5', 'bad operand', 'VDP@ is written V@ here'),
    ('gpl', b' MOVE 5,V@0,grom@>6000', 'bad operand', 'GROM@ is written G@ here'),
    ('gpl', b' ST $8300,5', 'bad operand', 'a hexadecimal number begins with >, as >8300'),
    ('gpl', b' ST @$83a0,5', 'bad token', 'a hexadecimal number begins with >, as >83A0'),
    ('a', b' LI R1,$1F', 'bad token', 'a hexadecimal number begins with >, as >1F'),
    ('gpl', b' MOVE 5 FROM GROM@>6000 TO VDP@>0000', 'operand count',
     'MOVE takes length, target and source, in this order, with commas between them, as in MOVE 5,V@0,G@>6000'),
    ('gpl', b' ST @>8300,256', 'bad operand', 'ST takes a byte, which is at most 255, or >FF; DST takes a word'),
    ('gpl', b'X EQU @>8300', 'bad token', 'EQU takes the value itself, without @'),
    ('gpl', b' CALL @>6000', 'bad operand', 'CALL takes the value itself, without @'),
    ('a', b' DATA 1,@5', 'bad token', 'DATA takes the value itself, without @'),
    ('gpl', b' DATA 1,@5(R1)', 'bad token', 'DATA takes the value itself, without @'),
    ('gpl', b" DATA 'ABC'", 'bad token', 'a text is placed by TEXT'),
    ('gpl', b" DATA 'A_B',1,'LONGNAME','\"'", 'bad token', 'a text is placed by TEXT'),
    ('a', b" DATA 1,'IT''S'", 'bad token', 'a text is placed by TEXT'),
    ('gpl', b' ST @5(R1),1', 'bad token',
     'an index is the address of a word, and begins with @, as in @>8300(@>8302)'),
    ('gpl', b'S ST @N,1\n EXIT\nN EQU >8300\n END S', 'unknown name',
     'N gets its value in line 3, and an address in an operand takes names of earlier lines alone'),
    ('gpl', b'S ST V*>8300(@INDEX),M\nM EQU 2\nindex EQU >8300', 'unknown name',
     'INDEX gets its value in line 3, and an address in an operand takes names of earlier lines alone'),
    ('gpl', b'A EQU B+1\nB EQU 2', 'unknown name',
     'B gets its value in line 2, and EQU takes names of earlier lines alone'),
    ('gpl', b'S RTN\n* S\nT RTN\ns RTN', 'duplicate label', 's has its value from line 1'),
    ('a', b'S RT\nT EQU 5\nT RT', 'duplicate label', 'T has its value from line 2'),
    ('a', b'R1 RT', 'duplicate label', 'R1 is a register'),
    ('a', b'S LI R1,5\n BSS SIZE\nSIZE EQU 2', 'unknown name',
     'SIZE gets its value in line 3, and BSS takes names of earlier lines alone'),
    ('gpl', b' BYTE 1,256', 'bad operand', 'a byte is at most 255, or >FF'),
    ('gpl', b' BYTE >100', 'bad operand', 'a byte is at most 255, or >FF'),
    ('gpl', b' ST @>8300, 5', 'bad operand', 'a blank ends the operands; write none after a comma'),
    ('a', b' DATA 1,\t2', 'bad operand', 'a blank ends the operands; write none after a comma'),
    ('a', b' MOV R1 ,R2', 'operand count', 'a blank ends the operands; write none before a comma'),
    ('gpl', b' BYTE 1,,2', 'bad operand', 'an operand is empty'),
    ('gpl', b' BYTE 1,', 'bad operand', 'an operand is empty'),
    ('gpl', b' TEXT "ABC"', 'bad operand', 'a text or a character is written between two \', not between two "'),
    ('a', b' IDT "MAIN"', 'bad directive', 'a text or a character is written between two \', not between two "'),
    ('gpl', b" TEXT 'IT'S'", 'bad operand',
     "a quote is open at the end of the line; a ' in a text is written twice"),
    ('a', b' LI R1,0x1f', 'bad token', 'a hexadecimal number begins with >, as >1F'),
    ('gpl', b' ST @COUNTER,5', 'bad token', 'a name has at most six letters and digits, and COUNTER has 7'),
    ('a', b' REF VDP_WD', 'bad operand', 'a name has letters and digits alone, and no _'),
    ('gpl', b' MOVE 8,G@>6000,R@0', 'bad operand',
     'MOVE takes length, target and source, in this order, and G@ is no target'),
    ('a', b' REF SORT\n BL SORT', 'bad relocation', 'an operand without @ or * is a register; the address is @SORT'),
    ('a', b' COPY "sub/A.SRC"', 'bad directive', 'COPY takes the name of a file beside the source, and no path'),
    ('a', b' COPY A.SRC', 'bad directive', 'COPY takes the name of a file between two "'),
    ('a', b" copy 'DSK1.LOOP' x", 'missing DSK1.LOOP',
     'a file is named without its device: "LOOP", beside the source'),
]
# Lines that are refused, and whose text does not say for certain why.
NO_NOTES = [
    ('gpl', b' ST COUNT,5'), ('gpl', b' BYTE 1,R@2'), ('gpl', b' BYTE 255,R@2'), ('gpl', b' ST 5,255'),
    ('gpl', b' MOVE 5,6'), ('gpl', b" DATA 'AB',5(R1"), ('gpl', b' ST 5(R1),1'), ('gpl', b' MOVE 5 V@0 G@>6000'),
    ('gpl', b'S ST @N,M\nM EQU 5'), ('gpl', b' ST @N,1\n END\nN EQU 5'), ('gpl', b' ST @N,1\n*N EQU 5'),
    ('gpl', b'N EQU N'), ('gpl', b' ST @M,1\n ST @N,1\n EXIT\nN EQU 5'), ('a', b' LI R1,M\nN EQU 5'),
    ('gpl', b' JMPP X'), ('a', b' REF S\nS RT'), ('a', b'A MOVV R1,R2'), ('a', b'LOOP ST@X'),
    ('a', b' TEXT COUNTER'), ('a', b' CLR R1,R2 ,x'), ('a', b' CLR R1,COUNTER'), ('gpl', b' DCLR COUNTER'),
    ('a', b' IDT COUNTER'), ('a', b' JMP COUNT'), ('a', b' LI 16,>12345678'),
    ('gpl', b" DATA 5+,'A_','LO','\"'"), ('gpl', b' EQU 1'), ('a', b'LABEL COPY "MY_LONGNAME.SRC"'),
]


class Accepted(Calling):
    def test_the_output_is_the_image_or_the_object_text(self):
        self.file('in ner/a.gpl', ACCEPTED)
        self.file('B.ASM', b' END\n')
        ended = self.call('assemble', 'in ner/a.gpl')
        self.assertEqual((ended.returncode, ended.stdout, ended.stderr), (0, IMAGE, b''))
        ended = self.call('assemble', 'B.ASM')
        self.assertEqual((ended.returncode, ended.stderr), (0, b''))
        self.assertTrue(ended.stdout.startswith(b'0'))

    def test_an_option_says_what_the_source_is(self):
        self.file('a.txt', ACCEPTED)
        self.assertEqual(self.call('assemble', '--gpl', 'a.txt').stdout, IMAGE)
        self.assertEqual(self.call('assemble', '--asm', 'a.txt').returncode, 1)
        ended = self.call('assemble', 'a.txt')
        self.assertEqual(ended.returncode, 2)
        self.assertIn(b'a.txt: no source has a name with this ending; give --gpl or --asm', ended.stderr)

    def test_a_file_is_replaced_as_a_whole_and_keeps_its_permissions_and_links(self):
        self.file('a.gpl', ACCEPTED)
        old = self.file('old', b'longer than the image')
        old.chmod(0o640)
        (self.folder / 'link').symlink_to('old')
        for output in ('new', 'link'):
            self.assertEqual(self.call('assemble', 'a.gpl', '-o', output).stderr, b'')
        self.assertEqual(((self.folder / 'new').read_bytes(), old.read_bytes()), (IMAGE, IMAGE))
        self.assertTrue((self.folder / 'link').is_symlink())
        self.assertEqual(old.stat().st_mode & 0o777, 0o640)
        self.assertEqual(sorted(os.listdir(self.folder)), ['a.gpl', 'link', 'new', 'old'])

    def test_a_device_is_written_as_it_is(self):
        self.file('a.gpl', ACCEPTED)
        self.assertEqual(self.call('assemble', 'a.gpl', '-o', '/dev/null').returncode, 0)
        ended = self.call('assemble', 'a.gpl', '-o', '/dev/full')
        self.assertEqual((ended.returncode, ended.stderr.count(b'\n')), (3, 1))

    def test_copied_files_are_beside_the_source(self):
        self.file('sub/main.a', b' COPY "EQU.SRC"\n DATA N\n')
        self.file('sub/EQU.SRC', b'N EQU 5\n')
        self.assertEqual(self.call('assemble', 'sub/main.a').returncode, 0)

    def test_a_pipe_is_a_source(self):
        ended = subprocess.run(['bash', '-c', '"$0" --gpl <(echo " FOO")', TOOLS / 'assemble'], capture_output=True)
        self.assertRegex(ended.stderr, rb'/dev/fd/\d+:1: unknown operation\n     FOO\n')


class Refused(Calling):
    def refusal(self, name, source, *words, **environment):
        """Status and standard error of a source that is refused."""
        self.file(name, source)
        ended = self.call('assemble', name, *words, **environment)
        self.assertEqual(ended.stdout, b'')
        return ended.returncode, ended.stderr

    def test_place_cause_and_line(self):
        self.assertEqual(self.refusal('sub/a b.gpl', b' RTN\r\n FOO  @A\r\n'),
                         (1, b'sub/a b.gpl:2: unknown operation\n     FOO  @A\n'))

    def test_the_output_is_left_alone(self):
        self.file('out', b'before')
        self.assertEqual(self.refusal('a.gpl', b' FOO\n', '-o', 'out')[0], 1)
        self.assertEqual((self.folder / 'out').read_bytes(), b'before')
        self.assertEqual(self.refusal('a.gpl', b' FOO\n', '-o', 'new')[0], 1)
        self.assertFalse((self.folder / 'new').exists())

    def test_a_line_of_a_copied_file_has_its_path(self):
        self.file('sub/IN-1.SRC', b'* x\n FOO\n')
        self.assertEqual(self.refusal('sub/main.a', b' COPY "IN-1.SRC"\n'),
                         (1, b'sub/IN-1.SRC:2: unknown operation\n     FOO\n'))
        self.assertEqual(self.refusal('sub/main.a', b" COPY 'OUT.SRC'\n"),
                         (1, b"sub/main.a:1: missing OUT.SRC\n     COPY 'OUT.SRC'\n"))

    def test_a_cause_without_a_line(self):
        self.assertEqual(self.refusal('a.gpl', b'*' * (1 << 20) + b'\n'), (1, b'a.gpl: too large\n'))
        self.file('A.SRC', b'*\n' * 131_073)
        self.assertEqual(self.refusal('b.a', b' COPY "A.SRC"\n'), 
                         (1, b'b.a: too large\nb.a: note: a file that it copies has more than 262,144 bytes\n'))

    def test_a_run_that_ends_otherwise(self):
        for exits, status, reason in (('exit 3', 3, b'a file that it copies cannot be read'),
                                      ('exit 5', 5, b'out of memory'),
                                      ('exit 9', 9, b'the program ended with status 9'),
                                      ('kill -TERM $$', 143, b'the program ended with status -15')):
            self.file('program', b'#!/bin/sh\ncat >/dev/null\n' + exits.encode()).chmod(0o755)
            self.assertEqual(self.refusal('a.a', b'', '--program', './program'), (status, b'a.a: ' + reason + b'\n'))

    def test_notes(self):
        for ending, source, cause, note in NOTES:
            with self.subTest(source):
                name = f'a.{ending}'
                status, text = self.refusal(name, source + b'\n')
                lines = text.split(b'\n')
                place = lines[0][:lines[0].index(b': ') + 2]
                wanted = [place + cause.encode(), place + b'note: ' + note.encode(), b'']
                self.assertEqual((status, lines[:1] + lines[2:]), (1, wanted))
                self.assertIn(lines[1][4:], [refusals.shown(line.decode('latin-1')) for line in source.split(b'\n')])

    def test_the_operations_that_are_left_out_have_a_note_in_a_gpl_source_alone(self):
        for operation in sorted(languages.LEFT_OUT):
            found = [notes.note(f' {operation}', 'unknown operation', language) for language in ('gpl', 'asm')]
            self.assertEqual(found, [f'{operation} is an operation of GPL that is left out here',
                                     f'{operation} is an operation of GPL, and this is an assembler source'])

    def test_the_names_of_both_languages_are_those_of_the_definitions(self):
        for language, listed in (('gpl', names.gpl()), ('asm', names.assembler())):
            operations = {*listed.operations, *listed.bare_operations}
            directives = {*listed.directives, *listed.bare_directives, *listed.file_directives}
            self.assertEqual((languages.OPERATIONS[language], languages.DIRECTIVES[language]), (operations, directives))

    def test_an_input_that_is_no_source_has_a_note(self):
        objects, bytes_ = 'this is object text, and no source; link takes it', \
            'this is no text; the bytes of an image are listed by gdis'
        for data, kind in ((b'00004        A0000B10FF20000F\n:\n', objects),
                           (b'\x01\0\4        A\0\0B\x10\xff', objects),
                           (b'\xaa\1\1\0\0\0\x60\x10', bytes_), (b' FOO\0\n', bytes_), (b' FOO\n', None),
                           (b'\xff\xfeA\0', None)):
            for ending in ('gpl', 'a'):
                lines = self.refusal(f'x.{ending}', data)[1].split(b'\n')
                found = [line for line in lines if line.startswith(f'x.{ending}: note:'.encode())]
                self.assertEqual(found, [f'x.{ending}: note: {kind}'.encode()] if kind else [], data)

    def test_no_line_that_is_accepted_would_have_a_note(self):
        causes = ('bad label', 'unknown operation', 'operand count', 'bad operand', 'bad token', 'bad directive')
        for words in (TOP / 'examples').glob('*/words'):
            command = words.read_text().split()[0]
            if command in ('asm', 'gasm', 'run', 'trace', 'watch'):
                language = 'asm' if command == 'asm' else 'gpl'
                lines = (words.parent / 'input').read_text(encoding='latin-1').splitlines()
                for number, line in enumerate(lines, 1):
                    found = [] if line[:1] == '*' or ' COPY ' in line else [
                        notes.note(line, cause, language) for cause in causes]
                    self.assertFalse(any(found) or notes.later_note(lines, number, language), line)

    def test_no_note_without_certainty(self):
        for ending, source in NO_NOTES:
            with self.subTest(source):
                status, text = self.refusal(f'a.{ending}', source + b'\n')
                self.assertEqual((status, text.count(b'\n')), (1, 2), text)

    def test_a_line_is_shown_without_control_codes_and_not_longer_than_it_may_be(self):
        self.assertEqual(self.refusal('a.gpl', b' FOO \x1b[2J\t\xc3\xa9\r')[1],
                         b'a.gpl:1: unknown operation\n     FOO \\x1b[2J\t\xc3\xa9\\x0d\n')
        self.assertEqual(self.refusal('a.gpl', b' FOO \x9b2J \xe9 \xc2\x9b \xe2\x82\xac \xe2\x82\n')[1],
                         b'a.gpl:1: unknown operation\n     FOO \\x9b2J \xe9 \\xc2\\x9b \xe2\x82\xac \xe2\\x82\n')
        self.assertEqual(self.refusal('a.gpl', b'ST @\x9b2J\n')[1].split(b'\n')[2],
                         b'a.gpl:1: note: what begins in column 1 is a label, '
                         b'so the operation of this line is @\\x9b2J')
        self.assertEqual(self.refusal('a.gpl', b' FOO' + 300 * b'x')[1],
                         b'a.gpl:1: line too long\n     FOO' + 252 * b'x' + b' ..\n')

    def test_names_are_bytes_in_every_locale(self):
        name = os.fsdecode(b'caf\xe9.gpl')
        for locale in ('C', 'C.UTF-8', 'POSIX'):
            self.assertTrue(self.refusal(name, b' FOO\n', LC_ALL=locale)[1].startswith(b'caf\xe9.gpl:1: '))

    def test_a_link_is_called_by_its_own_name(self):
        self.file('a.txt', b'')
        (self.folder / 'ti_bench-assemble').symlink_to(TOOLS / 'assemble')
        ended = subprocess.run(['./ti_bench-assemble', 'a.txt'], capture_output=True, cwd=self.folder)
        self.assertTrue(ended.stderr.startswith(b'ti_bench-assemble: a.txt: '), ended.stderr)


class Unreadable(Calling):
    def test_files_that_cannot_be_read_or_written(self):
        self.file('a.gpl', ACCEPTED)
        (self.folder / 'sub').mkdir()
        for words, status, text in (
                (['none.gpl'], 3, 'none.gpl: No such file or directory'),
                (['none.gpl', '-o', 'a.gpl'], 3, 'none.gpl: No such file or directory'),
                (['sub', '--gpl'], 3, 'sub: Is a directory'),
                (['a.gpl', '-o', 'sub'], 3, 'sub: Is a directory'),
                (['a.gpl', '-o', 'none/out'], 3, 'none/out: No such file or directory'),
                (['a.gpl', '-o', 'a.gpl'], 2, 'a.gpl: the output would replace a file that is read'),
                (['a.gpl', '--program', './none'], 3, 'no program ./none')):
            with self.subTest(words):
                ended = self.call('assemble', *words)
                self.assertEqual((ended.returncode, ended.stderr.decode()), (status, f'tools/assemble: {text}\n'))
        self.assertEqual((self.folder / 'a.gpl').read_bytes(), ACCEPTED)

    def test_a_file_that_is_copied_is_no_output(self):
        texts = {'main.a': b' copy "B.SRC"\n', 'B.SRC': b' COPY \'C.SRC\'\n', 'C.SRC': b' COPY "D.SRC"\n',
                 'D.SRC': b' COPY "E.SRC"\n', 'E.SRC': b'* the end\n'}
        for name, text in texts.items():
            self.file(f'sub/{name}', text)
        for name in texts:
            ended = self.call('assemble', 'sub/main.a', '-o', f'./sub/{name}')
            self.assertEqual((ended.returncode, ended.stderr.decode()), (
                2, f'tools/assemble: ./sub/{name}: the output would replace a file that is read\n'))
            self.assertEqual((self.folder / 'sub' / name).read_bytes(), texts[name])
        self.file('a.gpl', b'* COPY "OLD"\n' + ACCEPTED)
        self.file('OLD', b'')
        self.assertEqual(self.call('assemble', 'a.gpl', '-o', 'OLD').returncode, 0)

    def test_a_file_that_is_no_program_is_said_to_be_none(self):
        self.file('a.gpl', ACCEPTED)
        self.file('text', b'').chmod(0o644)
        for words, environment in ((['--program', './text'], {}), ([], {'TI_BENCH': './text'})):
            ended = self.call('assemble', 'a.gpl', *words, **environment)
            self.assertEqual((ended.returncode, ended.stderr), (3, b'tools/assemble: ./text: not executable\n'))

    def test_an_empty_name_of_an_output_is_a_wrong_word(self):
        self.file('a.gpl', ACCEPTED)
        ended = self.call('assemble', 'a.gpl', '-o', '')
        self.assertEqual((ended.returncode, ended.stdout), (2, b''))
        self.assertIn(b'the name of a file is empty', ended.stderr)

    def test_streams_that_are_closed(self):
        self.file('a.gpl', ACCEPTED)
        for words, status in (('a.gpl >&-', 3), ('a.gpl -o out <&- >&-', 0), ('a.gpl -o none/out 2>&-', 3),
                              ('a.gpl <&-', 0)):
            ended = subprocess.run(['bash', '-c', f'"$0" {words}', TOOLS / 'assemble'], capture_output=True,
                                   cwd=self.folder)
            self.assertEqual(ended.returncode, status, words)
            self.assertEqual(ended.stderr.count(b'\n'), words == 'a.gpl >&-', words)
        self.assertEqual((self.folder / 'out').read_bytes(), IMAGE)


if __name__ == '__main__':
    unittest.main()
