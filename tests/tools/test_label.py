"""Tests of tools/label."""
import random
import re
import stat
import unittest

import label_checks
import label_images
from calling import TOP, Calling
from label_images import Case
from labelling.addresses import Addresses
from labelling.calls import Rejected
from labelling.image import Image
from labelling.label import Labelling as Labelling_
from labelling.label import Wishes, comes_back, labelled
from labelling.language import GPL
from labelling.places import misplaced
from labelling.source import Source
from lib import command, program

HELLO = b"""\
       BYTE >AA,1,1,0
       DATA 0,MENU,0,0
MENU   DATA 0,START
       BYTE 5
       TEXT 'HELLO'
WORD   TEXT 'HELLO'
START  ALL  >20
       ST   @>8302,3
AGAIN  MOVE 5,V@>0166,G@WORD
       DEC  @>8302
       CZ   @>8302
       BR   AGAIN
       EXIT
       END  START
"""
NONE = 'no source was found of which the program makes the same'
LABELLED = """\
* 46 bytes from >6000 on, labelled by ti_bench-label. The comment of a line has the address of its bytes.
       GROM >6000
       AORG >0000
       BYTE >AA,>01,>01,>00             * >6000
       DATA >0000                       * >6004 power-up
       DATA D600C                       * >6006 programs
       DATA >0000                       * >6008 devices
       DATA >0000                       * >600A subprograms
D600C  DATA >0000                       * >600C next
       DATA P601B                       * >600E entry
       BYTE >05                         * >6010
       TEXT 'HELLO'                     * >6011
D6016  TEXT 'HELLO'                     * >6016
*
P601B  ALL  >20                         * >601B
       ST   @>8302,>03                  * >601D
L6020  MOVE >0005,V@>0166,G@D6016       * >6020
       DEC  @>8302                      * >6027
       CZ   @>8302                      * >6029
       BR   L6020                       * >602B
       EXIT                             * >602D
       END P601B
"""


class Labelling(Calling):
    def setUp(self):
        super().setUp()
        self.program = program.program()

    def image(self, source):
        return self.program.run('gasm', given=source).out

    def words(self, source):
        """The bytes of absolute words that a source places."""
        found = label_checks.words(self.program.run('asm', given=source).out)
        return b''.join(found[at].to_bytes(2, 'big') for at in sorted(found))

    def label(self, *words, given, status=0):
        """The lines of the source, and the lines of standard error without the script's name."""
        ended = self.call('label', *words, given=given)
        self.assertEqual(ended.returncode, status, ended.stderr)
        said = [line.partition(': ')[2] for line in ended.stderr.decode().splitlines()]
        return ended.stdout.decode('ascii').splitlines(), said


    def tried(self, case, found=None):
        try:
            made = labelled(found or self.program, case.lister, case.at, case.data, case.wishes)
        except Rejected as rejected:
            return str(rejected)
        if case.lister == 'link':
            is_moved = 'can be moved' in made.summary
            return label_checks.fault_of_object(self.program, self.folder, case.data, made.text, is_moved)
        return label_checks.fault(self.program, case, made.text) if case.data else ''


class CommandLine(Labelling):
    def test_a_cartridge_is_labelled_from_its_header(self):
        lines, said = self.label('gdis', '6000', given=self.image(HELLO))
        self.assertEqual(lines, LABELLED.splitlines())
        self.assertEqual(said, ['46 bytes, 19 of them code; 4 labels; 4 addresses by labels; the same bytes'])

    def test_an_output_file_is_replaced_only_by_a_source(self):
        old, names = self.file('out', b'old'), self.file('names', b'')
        self.label('-o', 'out', 'gdis', 'FFFF', given=b'\0\0', status=1)
        self.assertEqual(old.read_bytes(), b'old')
        lines, said = self.label('-o', 'out', 'gdis', '6000', given=self.image(HELLO))
        self.assertEqual((lines, old.read_bytes().decode(), len(said)), ([], LABELLED, 1))
        for option in ('--names', '--covered'):
            self.file('names', b'     1 >6000 S00 D9F R7E RTN\n' if option == '--covered' else b'')
            said = self.label(option, 'names', '-o', './names', 'gdis', '6000', given=b'\0', status=2)[1]
            self.assertEqual(said, ['./names: the output would replace a file that is read'])
        self.assertEqual(names.read_bytes(), b'     1 >6000 S00 D9F R7E RTN\n')

    def test_wrong_words_have_status_2(self):
        for words in ([], ['gdis'], ['gdis', '600'], ['dis', '6001'], ['link', '6000'], ['asm', '6000'],
                      ['--entry', '60', 'gdis', '6000'], ['--data', '6001', 'gdis', '6000'],
                      ['--data', '6002-6001', 'gdis', '6000'], ['--covered', 'x', 'dis', '6000']):
            with self.subTest(words):
                ended = self.call('label', *words)
                self.assertEqual((ended.returncode, ended.stdout), (2, b''))

    def test_files_and_programs_that_are_not_there_have_status_3(self):
        for words in (['--names', 'none'], ['--covered', 'none'], ['--program', './none']):
            ended = self.call('label', *words, 'gdis', '6000', given=b'\0')
            self.assertEqual((ended.returncode, ended.stdout), (3, b''))

    def test_what_is_rejected_has_status_1(self):
        self.assertEqual(self.label('gdis', 'FFFF', given=b'\0\0', status=1)[1], ['past the end of memory'])
        self.assertEqual(self.label('link', given=b'no object', status=1)[1], ['line 1: bad tag'])

    def test_it_works_installed_in_another_locale_and_from_names_with_blanks(self):
        installed = self.folder / 'lib' / 'ti_bench'
        installed.mkdir(parents=True)
        (installed / 'tools').symlink_to(TOP / 'tools')
        (self.folder / 'ti_bench-label').symlink_to(installed / 'tools/label')
        names = self.file('names of cells', b'* caf\xe9\n@>8302 COUNT\n')
        script = self.folder / 'ti_bench-label'
        ended = self.call(script, '--names', names, 'gdis', '6000', given=self.image(HELLO), LC_ALL='C')
        self.assertEqual(ended.returncode, 0)
        self.assertIn(b'DEC  @COUNT', ended.stdout)
        self.assertTrue(ended.stderr.startswith(b'ti_bench-label: 46 bytes'), ended.stderr)


class Wished(Labelling):
    def test_names_of_a_file_are_used(self):
        self.file('names', b'>601B begin\n@>8302 COUNT  * turns\nV@>0166 SCREEN\n'
                           b'>6016 WORD\n>6018 MIDDLE\n>6016 ALSO\n')
        lines, _ = self.label('--names', 'names', 'gdis', '6000', given=self.image(HELLO))
        text = '\n'.join(lines)
        for line in ('COUNT  EQU >8302', 'SCREEN EQU >0166', 'BEGIN  ALL  >20', "MIDDLE TEXT 'LLO'",
                     "ALSO\nWORD   TEXT 'HE'"):
            self.assertIn(line, text)
        self.assertIn('MOVE >0005,V@SCREEN,G@WORD', text)
        self.assertEqual(lines[-1], '       END BEGIN')

    def test_a_name_inside_of_an_instruction_is_made_equal(self):
        self.file('names', b'>601E PLACE\n')
        lines, _ = self.label('--names', 'names', 'gdis', '6000', given=self.image(HELLO))
        self.assertIn('PLACE  EQU D601D+1', lines)

    def test_all_names_of_an_address_are_kept(self):
        self.file('names', b''.join(b'>%04X N%X%d\n' % (at, at, number) for number in range(3)
                                    for at in (0x601B, 0x601E, 0x602E, 0x5000)))
        lines, _ = self.label('--names', 'names', 'gdis', '6000', given=self.image(HELLO))
        debugger = program.Program(program.other(self.program.path, 'ti_debug'))
        listed = debugger.run('glist', given='\n'.join([*lines, '']).encode()).out.decode()
        found = set(re.findall(r'^name >(\w{4}) +\d+ (N\w+)$', listed, re.M))
        self.assertEqual(found, {(at, f'N{at}{number}') for at in ('601B', '601E', '602E', '5000')
                                 for number in range(3)})

    def test_it_is_said_if_no_name_of_a_file_is_kept(self):
        self.file('names', b'>6000 START\n')
        said = self.label('--names', 'names', 'gdis', '6000', given=b'')[1]
        self.assertEqual(said, ['names: the names are left out', '0 bytes'])

    def test_names_that_cannot_be_are_rejected_with_their_line(self):
        for text, said in (('>6000 R5', 'R5: duplicate label'), ('>6000 TOOLONG', 'TOOLONG: bad label'),
                           ('>6000 1X', '1X: bad label'), ('6000 X', 'not an address and a name'),
                           ('>6000 X\n>6001 x', 'x: stands twice'), ('@>8302 A\n@>8302 B', 'B: @>8302 has a name')):
            with self.subTest(text):
                self.file('names', text.encode())
                ended = self.call('label', '--names', 'names', 'gdis', '6000', given=b'\0')
                said = f'names:{len(text.splitlines())}: {said}\n'
                self.assertEqual((ended.returncode, ended.stdout, ended.stderr.decode()), (1, b'', said))

    def test_a_mark_before_names_is_said(self):
        for mark, note in ((b'\xef\xbb\xbf', b'a byte order mark; save the file without one'),
                           (b'\xff\xfe', b'the mark of UTF-16; save the file as plain text')):
            self.file('names', mark + b'* cells\n@>8302 COUNT\n')
            ended = self.call('label', '--names', 'names', 'gdis', '6000', given=b'\0')
            self.assertEqual((ended.returncode, ended.stderr), (
                1, b'names:1: not an address and a name\nnames:1: note: the line begins with ' + note + b'\n'))

    def test_names_of_other_letters_are_rejected_as_they_are_written(self):
        self.file('names', b'>6000 \xb5\xff\x9b\n')
        ended = self.call('label', '--names', 'names', 'gdis', '6000', given=b'\0')
        self.assertEqual((ended.returncode, ended.stderr), (1, b'names:1: \xb5\xff\\x9b: bad label\n'))

    def test_what_a_trace_executed_is_code(self):
        source = HELLO.replace(b'BYTE >AA', b'BYTE >AB')
        self.file('trace', self.program.run('trace', '100', given=source).out)
        lines, said = self.label('--covered', 'trace', 'gdis', '6000', given=self.image(source))
        self.assertIn('46 bytes, 19 of them code', said[-1])
        self.assertIn('       BR   L6020                       * >602B', lines)

    def test_a_file_without_steps_covers_nothing(self):
        self.file('trace', self.program.run('run', '100', given=HELLO).out)
        ended = self.call('label', '--covered', 'trace', 'gdis', '6000', given=b'\x0B')
        self.assertEqual((ended.returncode, ended.stderr),
                         (1, b'tools/label: trace: no line of a step, so this is no report of trace\n'))

    def test_a_range_outside_of_the_image_is_said(self):
        for option in ('--data', '--pointer', '--table'):
            _, said = self.label('--entry', '6000', option, '5FFF-6000', option, '6010-6011', option, '6000-6000',
                                 'gdis', '6000', given=b'\x0B')
            self.assertEqual(said[:-1], ['>5FFF-6000: a part of this range is outside of the image',
                                         '>6010-6011: this range is outside of the image'], option)

    def test_an_entry_outside_of_the_image_is_said(self):
        _, said = self.label('--entry', '6000', '--entry', '6002', 'gdis', '6000', given=b'\x0B\x0B')
        self.assertEqual(said[0], '>6002: this entry is outside of the image')

    def test_entries_may_be_ranges(self):
        data = self.image(b' EXIT\n ST @>8300,1\n EXIT\n ALL 32\n RTN\n BYTE >0B\n')
        lines, _ = self.label('--entry', '6001-6004', '--entry', '6007', 'gdis', '6000', given=data)
        self.assertEqual([line[7:38].strip() for line in lines if '* >' in line],
                         ['BYTE >0B', 'ST   @>8300,>01', 'EXIT', 'BYTE >07,>20', 'RTN', 'BYTE >0B'])
        self.assertEqual(lines[-1], '       END P6001')

    def test_pointers_tables_and_data(self):
        data = self.image(b' DST @>8300,>6008\n B >600A\n BYTE 11\nA RTN\n RTN\n DATA A\n BYTE >0B\n')
        words = ['--pointer', '6000-6003', '--table', '600A-600B', '--data', '6008-6008', 'gdis', '6000']
        lines, _ = self.label(*words, given=data)
        self.assertIn('DST  @>8300,D6008', '\n'.join(lines))
        lines, _ = self.label('--pointer', '6001-6006', 'gdis', '6000', given=self.image(b'A RTN\n DATA A,A,A\n'))
        self.assertEqual([line[:38].strip() for line in lines if 'DATA' in line], ['DATA P6000'] * 3)


class Doubts(Labelling):
    def test_values_that_might_be_addresses_are_listed_once(self):
        data = self.image(b' DST @>8300,>600A\n DST @>8302,>600A\n EXIT\n BYTE 1,2,3\n')
        lines, said = self.label('gdis', '6000', given=data)
        self.assertEqual(said[0], '>6000: >600A might be an address, and in 1 more instructions')
        self.assertIn('* >6000 >600A?', lines[4])

    def test_words_that_might_be_addresses_are_listed_in_ranges(self):
        data = self.words(b' AORG >2000\nL JMP L\n DATA >2002,>2004,1,2,>2000,5\n')
        lines, said = self.label('dis', '2000', given=data)
        self.assertEqual(said[0], '>2002-200D: words that might be addresses')
        self.assertIn('       DATA >2002,>2004,>0001,>0002     * >2002 >2002? >2004?', lines)

    def test_bytes_that_might_be_code_are_listed(self):
        data = self.image(b' EXIT\n ST @>8300,1\n INC @>8300\n CZ @>8301\n ALL 32\n RTN\n BYTE >FF,>FF\n')
        _, said = self.label('gdis', '6000', given=data)
        self.assertEqual(said[0], '>6001: might be code')

    def test_code_is_looked_for_from_a_label_on_that_is_inside_of_a_listed_line(self):
        data = self.image(b' MOVE 1,V@0,G@T\n EXIT\n BYTE >90\nT BYTE 0\n' + b' INC @>8301\n' * 4 + b' RTN\n')
        _, said = self.label('gdis', '6000', given=data)
        self.assertEqual(said[:-1], ['>600A: might be code'])

    def test_a_subroutine_that_may_take_more_or_less_is_listed(self):
        data = self.image(b'L CALL S\n BYTE 1\n EXIT\nS FETCH @>8300\n CZ @>8300\n BR S\n RTN\n')
        lines, said = self.label('gdis', '6000', given=data)
        self.assertEqual(said[0], '>6000: it is not known how many bytes >6005 takes after this call: it comes to '
                         '>6005 after more bytes and after fewer; --takes 6005=N would say it')
        self.assertIn('       BYTE >01,>0B                     * >6003 after a call?', lines)

    def test_what_was_executed_in_a_longer_spelling_is_listed(self):
        self.file('trace', b'     1 >6000 S00 D9F R7E INC @>8300 C1 >8300=01\n')
        _, said = self.label('--covered', 'trace', 'gdis', '6000', given=b'\x90\x80\x00\x0B')
        self.assertEqual(said[0], '>6000: executed, but not listed as an instruction')

    def test_there_are_few_lines_of_a_kind(self):
        rng = random.Random(1)
        data = b''.join(bytes([0xBF, 0x00]) + rng.randrange(0x6000, 0x6100).to_bytes(2, 'big') for _ in range(64))
        _, said = self.label('gdis', '6000', given=data + b'\x0B')
        self.assertLess(len(said), 22)
        self.assertRegex(said[-2], r'and \d+ more of this kind')


class Shapes(Labelling):
    def test_zeros_at_the_end_of_a_grom_are_not_written(self):
        data = self.image(b'L ALL 32\n EXIT\n END L\n').ljust(0x2000, b'\0') + b'\x0B'
        lines, _ = self.label('gdis', '6000', given=data)
        self.assertIn('* >00 up to >7FFF, which no line writes', lines)
        self.assertLess(len(lines), 16)
        lines, _ = self.label('gdis', '6000', given=data[:0x2000])
        self.assertEqual(lines[-3:-1], ['       AORG >1FFF', '       BYTE >00                         * >7FFF'])

    def test_another_fill_stays_in_its_place(self):
        data = self.image(b'L ALL 32\n EXIT\n END L\n').ljust(0x2000, b'\xFF')
        lines, _ = self.label('gdis', '6000', given=data)
        first = next(i for i, line in enumerate(lines) if line.startswith('* >FF up to >7FFF'))
        self.assertEqual(lines[first + 1], '       AORG >000B')
        longer = [*lines[:4], '       ALL  >20', *lines[4:first + 2], *lines[first + 3:], '']
        made = self.program.run('gasm', given='\n'.join(longer).encode())
        self.assertEqual((made.status, len(made.out), made.out[-1]), (0, 0x2000, 0xFF))

    def test_both_forms_of_words_after_calls_of_machine_code(self):
        source = b""" AORG >2000
L BL @A
 DATA >1111
 BL @B
 DATA >2222,>3333
 BLWP @V
 DATA >4444
 JMP L
A MOV *R11+,R1
 RT
B MOV R11,R9
 BL @A
 DATA >5555
 CLR R1
 AI R9,4
 B *R9
V DATA >8320,E
E MOVB *R14+,R1
 MOVB *R14+,R2
 RTWP
"""
        lines, said = self.label('dis', '2000', given=self.words(source))
        self.assertEqual(len(said), 1, said)
        taken = re.findall(r'DATA (\S+) .*after a call', '\n'.join(lines))
        self.assertEqual(taken, ['>1111', '>2222,>3333', '>4444', '>5555'])

    def test_an_object_keeps_its_names_and_moves(self):
        text = self.program.run('asm', given=b' DEF A,B\nA LI R1,B\n B @A\nB DATA A,>A000\n END A\n').out
        lines, _ = self.label('link', given=text)
        self.assertEqual([line[:38].rstrip() for line in lines[1:]], [
            '       DEF  A,B', '       RORG >0000', '*', 'A      LI   R1,B', '       B    @A', 'B      DATA A',
            '       DATA >A000', '       END A'])

    def test_a_name_of_a_file_that_an_object_has_is_rejected(self):
        self.file('names', b'>A002 A\n')
        text = self.program.run('asm', given=b' DEF A\nA B @A\n END A\n').out
        said = self.label('--names', 'names', 'link', given=text, status=1)[1]
        self.assertEqual(said, ['A: stands twice'])

    def test_free_places_of_an_object_are_kept(self):
        source = b' DEF B,C\nA MOV @B,@C-2\n B @A\nB BSS 6\n DATA C+8\nC BSS 2\n END A\n'
        lines, said = self.label('link', given=self.program.run('asm', given=source).out)
        self.assertEqual([line[:38].rstrip() for line in lines[1:]], [
            '       DEF  B,C', '       RORG >0000', '*', 'PA000  MOV  @B,@DA010', '       B    @PA000',
            'B      BSS  6', 'DA010  DATA PA000+26', 'C      BSS  2', '       END PA000'])
        self.assertIn('its code can be moved', said[-1])

    def test_names_that_no_source_can_have_are_left_out(self):
        text = b'00004        A0000B1000B10FF50000A-B   50002B     20000F\n:\n'
        lines, said = self.label('link', given=text)
        self.assertEqual(lines[1], '       DEF  B')
        self.assertEqual(said[0], 'the name A-B is left out: no source can have it')

    def test_jumps_around_an_end_of_memory_are_words(self):
        lines, _ = self.label('dis', 'FFFC', given=b'\x13\x01\x10\xFF')
        self.assertIn('JEQ >0000', lines[2] + lines[3])

    def test_tables_of_branches_are_marked(self):
        lines, _ = self.label('gdis', '6000', given=self.image((TOP / 'examples/calls/input').read_bytes()))
        self.assertEqual([line[-7:] for line in lines if ' case ' in line], [' case 0', ' case 1', ' case 2'])


class Images(Labelling):
    def test_edges(self):
        self.assertEqual({self.tried(case) for case in label_images.edges()}, {'', 'past the end of memory'})

    def test_images_by_a_seed(self):
        for number, case in enumerate(label_images.images(62, 300, 600)):
            with self.subTest(number=number, case=case):
                self.assertEqual(self.tried(case), '')

    def test_objects_by_a_seed(self):
        for number, source in enumerate(label_images.objects(62, 40)):
            text = self.program.run('asm', given=source).out
            with self.subTest(number=number, source=source):
                try:
                    made = labelled(self.program, 'link', None, text, Wishes()).text
                    self.assertEqual(label_checks.fault_of_object(self.program, self.folder, text, made), '')
                except Rejected as rejected:
                    self.assertEqual(str(rejected), self.program.run('link', given=text).fault)

    def test_all_of_memory(self):
        for data in (bytes([0x0C, 0x06, 0x00, 0x01]) * 16384, b"'" * 32768 + bytes(32768)):
            self.assertEqual(self.tried(Case('gdis', 0, data, Wishes())), '')
        self.assertEqual(self.tried(Case('dis', 0, b'\x13\x7F' * 32768, Wishes())), '')

    def test_what_is_wrong_in_a_source_is_found(self):
        case = Case('gdis', 0x6000, self.image(HELLO), Wishes())
        self.assertEqual(label_checks.fault(self.program, case, LABELLED.encode()), '')
        for old, new in (('* >601B', '* >601C'), ('* >6016', '* >6017'), ('>20 ', '>21 '), ('END P601B', 'END >7')):
            is_right = not label_checks.fault(self.program, case, LABELLED.replace(old, new).encode())
            self.assertEqual(is_right, old == 'END P601B')

    def test_an_image_is_answered_without_files(self):
        self.assertEqual(comes_back(self.program, self.image(HELLO)), 'labelled and the same')
        self.assertEqual(comes_back(self.program, b'\0\0', at=0xFFFF), 'past the end of memory')


class Lying(program.Program):
    """A program that changes one of its answers."""

    def __init__(self, path, number, change):
        super().__init__(path)
        self.left, self.change = number, change

    def run(self, *words, **more):
        run, self.left = super().run(*words, **more), self.left - 1
        return self.change(run) if self.left == 0 else run


def flipped(place, bit):
    """A change of one bit."""
    def change(run):
        at = int(place * len(run.out))
        return run._replace(out=run.out[:at] + bytes([run.out[at] ^ bit]) + run.out[at + 1:]) if run.out else run
    return change


class Lies(Labelling):
    def test_no_answer_that_is_wrong_leads_to_a_wrong_source(self):
        rng = random.Random(1)
        cases = [Case('gdis', 0x6000, self.image(HELLO), Wishes()),
                 Case('dis', 0x2000, self.words(b' AORG >2000\nL LI R1,>2008\n MOV *R1+,R2\n JMP L\n DATA 1\n'),
                      Wishes())]
        object_ = self.program.run('asm', given=b'L LI R1,D\n BSS 4\n JMP L\nD DATA 1,L\n END L\n').out
        cases.append(Case('link', None, object_, Wishes()))
        changes = [lambda run: run._replace(status=1, out=b'', err=b'line 4: overlap\n'),
                   lambda run: run._replace(out=run.out[:-1]), lambda run: run._replace(out=b'')]
        changes += [flipped(rng.random(), rng.choice([1, 2, 4])) for _ in range(12)]
        came = []
        for case in cases:
            for number in range(1, 12):
                for change in rng.sample(changes, 4):
                    try:
                        came.append(self.tried(case, Lying(self.program.path, number, change)))
                    except command.Stopped:
                        continue        # what no report has is not read
        self.assertEqual({it for it in came if not it.startswith(('line 4: overlap', NONE))}, {''})
        self.assertGreater(came.count(''), 30)

    def test_a_row_that_is_not_where_its_comment_says_is_named(self):
        labelling = Labelling_(self.program, GPL, Image([(0x6000, self.image(HELLO))]), Wishes())
        descent, _ = labelling._descent()
        addresses = Addresses(labelling.image, GPL, descent, labelling.headers, labelling.named, labelling.wishes)
        source = Source(addresses, labelling.named, [], None)
        rows = [row for row in source.rows if not row.is_directive]
        self.assertIsNone(misplaced(self.program, source))
        for i in (0, 3, len(rows) - 1):
            lie = lambda run: run._replace(out=run.out[:2 * i] + b'\xFF' + run.out[2 * i + 1:])
            self.assertIs(misplaced(Lying(self.program.path, 1, lie), source), rows[i])

    def test_a_program_that_is_always_wrong_is_found_out(self):
        script = self.file('wrong', f'#!/bin/sh\n"{self.program.path}" "$@" | tr "\\014" "\\015"\n'.encode())
        script.chmod(script.stat().st_mode | stat.S_IXUSR)
        ended = self.call('label', '--program', script, 'gdis', '6000', given=b'\x0C\x0B')
        self.assertEqual((ended.returncode, ended.stdout), (1, b''))


if __name__ == '__main__':
    unittest.main()
