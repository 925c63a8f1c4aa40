"""Tests of tools/label with subroutines that take bytes after their calls."""
import re
import types
import unittest

from label_takers import TAKERS, source
from labelling import takes, traced
from labelling.label import Wishes, labelled
from labelling.taken_gpl import Stacks, moves, stores
from labelling.takes import Takes
from test_label import Labelling

UP_TO_ZERO = b"""\
START  CALL S
       TEXT 'ONE'
       BYTE 0
       CALL S
       TEXT 'THREE'
       BYTE 0
       CEQ  @>8310,1
       BS   LAST
       EXIT
LAST   CALL S
       TEXT 'LAST'
       BYTE 0
       EXIT
S      FETCH @>8310
       CZ   @>8310
       BR   S
       RTN
       END  START
"""
WHY = 'it comes to >601F after more bytes and after fewer; --takes 601F=N would say it'


class Said(Labelling):
    def taken(self, *words, given):
        """The rows after calls, each with its text and its comment, and what is said of calls."""
        lines, said = self.label(*words, 'gdis', '6000', given=given)
        return [line[7:].replace('  ', '') for line in lines if 'after a call' in line], said[:-1]

    def test_forms_of_takes(self):
        length = self.image(source(TAKERS['by an index']))
        rows = ["BYTE >09 * >6003 after a call", "BYTE >02,>40,>41 * >6012 after a call"]
        self.assertEqual(self.taken('--takes', '601c=1+@1', given=length), (rows, []))
        found, said = self.taken('--takes', '601F=1..00', given=self.image(UP_TO_ZERO))
        self.assertEqual([re.sub(r' *\*', ' *', it) for it in found], [
            'BYTE >4F,>4E,>45,>00 * >6003 after a call', "TEXT 'THREE' * >600A after a call",
            "TEXT 'LAST' * >6019 after a call"])
        self.assertEqual(said, [])

    def test_the_byte_that_is_the_last_is_two_hexadecimal_digits(self):
        for word, wanted in (('61ae=3..1f', Takes(3, None, 0x1F)), ('61AE=12+@2', Takes(12, 2)), ('61AE=1', Takes(1))):
            self.assertEqual(takes.takes(word), (0x61AE, wanted))

    def test_words_that_say_nothing_have_status_2(self):
        for word in ('601F', '601F=', '601F=3+@4', '601F=3+@0', '601F=3..0', '61F=1', '601F=-1', '601F=1+2',
                     '601F=99999'):
            ended = self.call('label', '--takes', word, 'gdis', '6000', given=b'\0')
            self.assertEqual((ended.returncode, ended.stdout), (2, b''), word)
        ended = self.call('label', '--takes', '6000=1', '--takes', '6000=2', 'gdis', '6000', given=b'\0')
        self.assertEqual((ended.returncode, ended.stdout), (2, b''))
        self.assertIn(b'--takes says two things of one address', ended.stderr)

    def test_what_leads_past_the_end_and_what_nothing_calls_is_said(self):
        image = self.image(UP_TO_ZERO)
        _, said = self.taken('--takes', '601F=40', '--takes', '6000=1', given=image)
        self.assertEqual(said, [
            '>6000: it is not known how many bytes >601F takes after this call: what --takes 601F says leads past the '
            'end of the image; --takes 601F=N would say it', '>6000: --takes names it, but no call of it was found'])

    def test_calls_that_a_run_showed_take_what_they_took(self):
        self.file('run', self.program.run('trace', '100', given=UP_TO_ZERO).out)
        lines, said = self.label('--covered', 'run', '--entry', '6016', 'gdis', '6000', given=self.image(UP_TO_ZERO))
        self.assertEqual(said[0], '>6016: it is not known how many bytes >601F takes after this call: calls of it came '
                         'back after 4 and after 6 bytes; --takes 601F=N would say it')
        self.assertIn("       TEXT 'LAST'                      * >6019 after a call?", lines)
        self.assertIn("       TEXT 'THREE'                     * >600A after a call", lines)

    def test_a_run_comes_before_what_is_said(self):
        self.file('run', self.program.run('trace', '100', given=UP_TO_ZERO).out)
        lines, said = self.label('--covered', 'run', '--takes', '601F=4', 'gdis', '6000', given=self.image(UP_TO_ZERO))
        self.assertEqual(said[0], '>6007: the call came back to another place than --takes 601F says')
        self.assertIn("       TEXT 'THREE'                     * >600A after a call", lines)

    def test_a_call_that_came_back_at_once_takes_no_bytes(self):
        source = (b'START  CALL S\n       EXIT\nS      CZ   @>8310\n       BS   LAST\n       FETCH @>8311\n'
                  b'LAST   RTN\n       END  START\n')
        image = self.image(source)
        _, said = self.label('gdis', '6000', given=image)
        self.assertIn('after more bytes and after fewer', said[0])
        self.file('run', self.program.run('trace', '9', given=source).out)
        lines, said = self.label('--covered', 'run', 'gdis', '6000', given=image)
        self.assertEqual(len(said), 1, said)
        self.assertIn('       EXIT                             * >6003', lines)

    def test_a_call_that_came_back_to_two_places_is_not_certain(self):
        step = '     {} >{} S00 D9F R{} {}\n'
        rows = [('6000', '7E', 'CALL >6005'), ('6005', '80', 'RTN'), ('6003', '7E', 'BR >6000'),
                ('6000', '7E', 'CALL >6005'), ('6005', '80', 'RTN'), ('6004', '7E', 'EXIT')]
        self.file('run', ''.join(step.format(i, *row) for i, row in enumerate(rows, 1)).encode())
        _, said = self.label('--covered', 'run', 'gdis', '6000', given=b'\x06\x60\x05\x40\x00\x00')
        self.assertIn('>6000: it is not known how many bytes >6005 takes after this call: the call came back to >6003 '
                      'and to >6004; --takes 6005=N would say it', said)

    def test_data_right_after_a_call_are_what_it_takes(self):
        words = ['--data', '6003-6006', '--data', '600A-600F', '--data', '6019-601D']
        found, said = self.taken(*words, given=self.image(UP_TO_ZERO))
        self.assertEqual((len(found), said), (3, []))
        _, said = self.taken(*words[:4], given=self.image(UP_TO_ZERO))
        self.assertEqual(said, ['>6016: it is not known how many bytes >601F takes after this call: ' + WHY])
        # a call that is certain to take nothing goes on into them, and they are not followed
        data = b'\x06\x60\x05\x0B\x0B\x00'
        _, said = self.label('--entry', '6000', '--data', '6003-6003', 'gdis', '6000', given=data)
        self.assertIn('6 bytes, 4 of them code', said[-1])

    def test_calls_for_one_reason_stand_together(self):
        _, said = self.taken('--entry', '6000', '--entry', '6007', '--entry', '6016', given=self.image(UP_TO_ZERO))
        self.assertEqual(said, ['>6000: it is not known how many bytes >601F takes after this call and 2 more: ' + WHY])

    def test_a_call_of_what_is_outside_is_said(self):
        image = self.image(b' CALL >0010\n BYTE 8\n EXIT\n')
        found, said = self.taken('--takes', '0010=1', given=image)
        self.assertEqual((found, said), (['BYTE >08 * >6003 after a call'], []))
        _, said = self.taken(given=image)
        self.assertIn('>6000: >0010 is outside of the image, and is taken to take no bytes after a call; '
                      '--takes 0010=N says otherwise', said)

    def test_an_inner_subroutine_is_named(self):
        _, said = self.taken(given=self.image(source(TAKERS['by an inner subroutine'])))
        self.assertEqual(said, [
            '>6000: it is not known how many bytes >6013 takes after this call: it calls >6017, of which it is not '
            'known, since it stores to the stack of return addresses at >6017; --takes 6017=N would say it',
            '>6013: it is not known how many bytes >6017 takes after this call: it stores to the stack of return '
            'addresses at >6017; --takes 6017=N would say it'])

    def test_a_subroutine_that_ends_outside_is_said(self):
        image = self.image(b'L CALL S\n EXIT\nS FETCH @>8300\n B >0020\n')
        _, said = self.taken(given=image)
        self.assertIn('>6004: >0020 is outside of the image, and is taken to take no bytes after a call; '
                      '--takes 0020=N says otherwise', said)

    def test_bytes_after_a_call_that_are_code_too_are_said(self):
        image = self.image(b'L CALL S\nM EXIT\n EXIT\nS FETCH @>8300\n RTN\n')
        _, said = self.taken('--entry', '6000', '--entry', '6003', given=image)
        self.assertEqual(said, ['>6003: code leads here, but it is taken after a call'])
        self.file('run', b'     1 >6003 S00 D9F R7E EXIT\n')
        _, said = self.taken('--entry', '6000', '--covered', 'run', given=image)
        self.assertEqual(said, ['>6003: code, and taken after a call'])

    def test_a_subroutine_that_calls_itself(self):
        for fetched, count in ((b'', 0), (b' FETCH @>8300\n', 1)):
            _, said = self.taken(given=self.image(b'L CALL S\n EXIT\nS CZ @>8301\n BS E\n CALL S\nE' + (fetched or b' ')
                                                 + b' RTN\n'))
            self.assertEqual(len(said), count, said)

    def test_all_of_a_long_subroutine_is_followed_or_it_is_not_certain(self):
        for lines, count in ((990, 0), (1010, 1)):
            body = b' INC @>8300\n' * lines
            _, said = self.taken(given=self.image(b'L CALL S\n EXIT\nS ' + body[1:] + b' RTN\n'))
            self.assertEqual(len([it for it in said if 'how many bytes' in it]), count, said)


class Lines(unittest.TestCase):
    def test_what_is_stored(self):
        line = lambda text: types.SimpleNamespace(text=text, operation=text.partition(' ')[0])
        for text, found in (('ST @>8380,>01', 1), ('ST @>837F,>01', 0), ('DST @>837F,>0001', 1), ('INC @>8373', 1),
                            ('DINC @>8372', 1), ('DINC @>8371', 0), ('CZ @>8380', 0), ('CEQ @>8380,>01', 0),
                            ('ST @>8300,@>8380', 0), ('EX @>8300,@>8380', 1), ('DEX @>8380,@>8300', 1),
                            ('MUL @>837E,>02', 0), ('MUL @>837F,>02', 1), ('DMUL @>837D,>0002', 1),
                            ('DMUL @>837C,>0002', 0), ('DIV @>8372,>02', 1), ('DDIV @>8370,>0002', 1),
                            ('ST *>8300,>01', 1), ('ST @>8300(@>8302),>01', 1), ('ST V*>8300,>01', 0),
                            ('ST V@>0000(@>8302),>01', 0), ('ST @>8300,*>8302', 0), ('EX @>8300,*>8302', 1),
                            ('MOVE >0074,@>8300,G@>6000', 1), ('MOVE >0073,@>8300,G@>6000', 0),
                            ('MOVE >0000,*>8300,G@>6000', 0), ('MOVE @>8310,@>8300,G@>6000', 1),
                            ('MOVE @>8310,V@>0000,@>8380', 0), ('MOVE >0008,R@>00,G@>6000', 0), ('FETCH @>8380', 1),
                            ('FETCH @>8310', 0), ('PUSH @>8380', 0), ('ALL >20', 0), ('ST @>83C0,>55', 1)):
            why = [moves(operand, width, 0x80) for operand, width in stores(line(text))]
            self.assertEqual(len([it for it in why if it]), found, text)
        self.assertTrue(moves('@>8360', 1, 0x5A))
        self.assertFalse(moves('@>8359', 1, 0x5A))

    def test_where_the_stacks_are(self):
        line = lambda text: types.SimpleNamespace(text=text)
        for text, found in (('ST @>8373,>58', (0x5A, True)), ('ST @>8373,>A0', (0x80, True)),
                            ('ST @>8372,>7F', (0x80, False)), ('ST @>8372,>9F', (0x80, True)),
                            ('DST @>8372,>9F10', (0x12, True)),
                            ('DST @>8372,>9E7E', (0x80, False)), ('ST @>8372,@>8373', (0x80, True))):
            self.assertEqual(Stacks().after(line(text)), found, text)


class Traces(unittest.TestCase):
    def returned(self, *rows, last=''):
        text = ''.join(f'{number:6} >{at} S00 D9F R{top} {operation}\n' for number, at, top, operation in rows)
        return traced.returns(traced.steps(text + last))

    def test_a_call_came_back_by_its_own_return(self):
        rows = [(1, '6000', '7E', 'CALL >6010'), (2, '6010', '80', 'CALL >6020'), (3, '6020', '82', 'RTN'),
                (4, '6014', '80', 'RTN'), (5, '6003', '7E', 'INC @>8300')]
        self.assertEqual(self.returned(*rows), {0x6010: {0x6014}, 0x6000: {0x6003}})
        end = 'exit at >6003\ngpl >6009 S00 D9F R7E\npad\n'
        self.assertEqual(self.returned(*rows[:4], last=end), {0x6010: {0x6014}, 0x6000: {0x6009}})

    def test_steps_that_are_missing_break_it(self):
        self.assertEqual(self.returned((1, '6000', '7E', 'CALL >6010'), (3, '6010', '80', 'RTN'),
                                       (4, '6003', '7E', 'INC @>8300')), {})

    def test_a_return_address_that_is_dropped_is_no_return(self):
        self.assertEqual(self.returned((1, '6000', '7E', 'CALL >6010'), (2, '6010', '80', 'CALL >6020'),
                                       (3, '6020', '82', 'DECT @>8373'), (4, '6022', '80', 'RTN'),
                                       (5, '6005', '7E', 'INC @>8300')), {0x6000: {0x6005}})

    def test_the_place_at_the_end_is_not_executed(self):
        found = traced.steps('     1 >6000 S00 D9F R7E INC @>8300\ngpl >6002 S00 D9F R7E\n')
        self.assertEqual(traced.executed(found), [0x6000])


# a subroutine of machine code by its lines; how many bytes it takes, or why that is not certain
MACHINE = [
    ('MOV R11,@SAVE\n MOV *R11+,R1\n B *R11', 2),
    ('MOV R11,@SAVE\n INCT @SAVE\n MOV @SAVE,R11\n B *R11', 2),
    ('MOV R11,@SAVE\n BL @T\n MOV @SAVE,R10\n B *R10', 0),
    ('MOV R11,R10\n BL @T\n MOV *R10+,R1\n MOV *R10+,R1\n B *R10', 4),
    ('MOV R11,R10\n DECT R10\n AI R10,4\n B *R10', 2),
    ('MOV R11,R9\n BL @T9\n B *R9', 'it goes on at a place that is not known from B *R9 at >'),
    ('MOV R11,@SAVE\n LI R1,SAVE\n INCT *R1\n MOV @SAVE,R9\n B *R9', 'it goes on at a place that is not known from B'),
    ('MOV R11,*R10+\n BL @T\n DECT R10\n MOV *R10,R11\n B *R11', 'it goes on at a place that is not known from B *R11'),
    ('MOV R11,R10\n BL *R1\n B *R10', 'it goes on at a place that is not known from BL *R1 at >'),
    ('C R1,R2\n JEQ M\n INCT R11\nM B *R11', 'it comes to >'),
    ('C R1,R2\n JEQ M\n B *R11\nM INCT R11\n B *R11', 'it comes back after more bytes and after fewer'),
    ('LWPI >8300\n B *R11', 'LWPI at >'),
    ('X R1\n B *R11', 'X at >'),
    ('INC R11\n B *R11', 'it moves its return address'),
    ('RTWP', 'it goes on at a place that is not known from RTWP at >'),
    ('MOV R11,R1\n MPY R2,R0\n B *R1', 'it goes on at a place that is not known from B *R1 at >'),
]


class Machine(Labelling):
    def machine(self, body, call='BL @S'):
        data = self.words(f""" AORG >2000
L {call}
 DATA >8300,>8301
 JMP L
S {body}
T CLR R1
 B *R11
T9 INCT R9
 B *R11
SAVE DATA 0
W DATA >8320,S
""".encode())
        return labelled(self.program, 'dis', 0x2000, data, Wishes())

    def test_the_return_address_is_followed(self):
        for body, found in MACHINE:
            with self.subTest(body):
                made = self.machine(body)
                said = [line.partition('this call: ')[2] for line in made.doubts if 'how many bytes' in line]
                if isinstance(found, int):
                    self.assertEqual((said, made.text.count(b'after a call')), ([], found > 0))
                else:
                    self.assertEqual([it.startswith(found) for it in said], [True], said)

    def test_a_workspace_of_its_own(self):
        self.assertEqual(self.machine('MOV *R14+,R1\n RTWP', 'BLWP @W').text.count(b'after a call'), 1)
        for body in ('BL @T\n RTWP', 'B *R11', 'MOV R14,R1\n CLR R14\n RTWP'):
            made = self.machine(body, 'BLWP @W')
            self.assertEqual(len([line for line in made.doubts if 'how many bytes' in line]), 'BL' not in body, body)

    def test_a_call_of_what_is_outside_is_said(self):
        for call in ('BL @>0100', 'BLWP @>0104'):
            target = call[-4:]
            self.assertIn(f'>2000: >{target} is outside of the image, and is taken to take no bytes after a call; '
                          f'--takes {target}=N says otherwise', self.machine('B *R11', call).doubts)


if __name__ == '__main__':
    unittest.main()
