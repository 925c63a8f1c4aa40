"""Tests that tools take a source of several files, and that their lines and names are those of its files."""
import json
import re

from calling import TOP, Calling

LIGHTS = TOP / 'examples/lights'
FILES = {'main.gpl': b'       COPY "macros.gpl"\n       COPY "board.gpl"\n       END  START\n',
         'macros.gpl': b'* two lines\nPUT    MACRO CELL,BYTE\n       ST   @\\CELL,\\BYTE\n       ENDM\n',
         'board.gpl': b'N      EQU  >8301\nSTART  ST   @N,3\n.loop  DEC  @N\n       BR   .loop\n       PUT  N,7\n'
                      b'       EXIT\n'}


class Author(Calling):
    def setUp(self):
        super().setUp()
        for name, data in FILES.items():
            self.file(f'game/{name}', data)

    def changed(self, name, old, new):
        self.file(f'game/{name}', FILES[name].replace(old, new))

    def test_a_refused_line_is_named_by_its_file(self):
        self.changed('board.gpl', b'DEC  @N', b'DEC  @M')
        for tool, words in (('assemble', []), ('steps', []), ('watch', ['9', 'pad:N'])):
            ended = self.call(tool, 'game/main.gpl', *words)
            self.assertEqual((ended.returncode, ended.stdout, ended.stderr),
                             (1, b'', b'game/board.gpl:3: unknown name\n    .loop  DEC  @M\n'))

    def test_a_refused_line_of_a_macro_is_named_by_both_places(self):
        self.changed('board.gpl', b'PUT  N,7', b'PUT  N,300')
        self.assertEqual(self.call('assemble', 'game/main.gpl').stderr, (
            b'game/board.gpl:5: bad operand\n           ST   @N,300\n'
            b'game/board.gpl:5: note: in PUT of game/macros.gpl:3\n'
            b'game/board.gpl:5: note: ST takes a byte, which is at most 255, or >FF; DST takes a word\n'))

    def test_a_form_that_is_wrong_is_refused_by_each_tool(self):
        self.changed('board.gpl', b'BR   .loop', b'BR   .lop')
        for tool, words in (('assemble', []), ('steps', []), ('watch', ['9', 'pad:N'])):
            ended = self.call(tool, 'game/main.gpl', *words)
            self.assertEqual((ended.returncode, ended.stdout, ended.stderr), (
                1, b'', b'game/board.gpl:4: unknown name: there is no START.lop\n           BR   .lop\n'))

    def test_notes_name_the_files_too(self):
        self.changed('board.gpl', b'N      EQU  >8301\nSTART  ST   @N,3', b'START  ST   @N,3\nN      EQU  >8301')
        ended = self.call('assemble', '--all', 'game/main.gpl')
        self.assertEqual(ended.stderr.splitlines()[:3], [
            b'game/board.gpl:1: unknown name', b'    START  ST   @N,3',
            b'game/board.gpl:1: note: N gets its value in game/board.gpl:2, and an address in an operand takes names '
            b'of earlier lines alone'])

    def test_notes_have_the_author_s_names(self):
        self.changed('board.gpl', b'@N,3', b'@.late,3')
        self.file('game/board.gpl', (self.folder / 'game/board.gpl').read_bytes() + b'.late  RTN\n')
        self.assertEqual(self.call('assemble', 'game/main.gpl').stderr.splitlines()[2].split(b', and ')[0],
                         b'game/board.gpl:2: note: START.late gets its value in game/board.gpl:7')

    def test_a_local_label_of_a_macro_that_is_used_twice_is_no_name(self):
        self.changed('macros.gpl', b'       ENDM\n', b'.here\n       ENDM\n')
        self.assertEqual(self.call('watch', 'game/main.gpl', '99', 'pc:PUT.here').returncode, 0)
        self.changed('board.gpl', b'       EXIT\n', b'       PUT  N,8\n       EXIT\n')
        ended = self.call('watch', 'game/main.gpl', '99', 'pc:PUT.here')
        self.assertEqual((ended.returncode, ended.stdout), (2, b''))
        self.assertIn(b'the source has no name PUT.here', ended.stderr)

    def test_nothing_that_was_read_is_replaced(self):
        for tool, words in (('assemble', []), ('steps', [])):
            for name in FILES:
                ended = self.call(tool, 'game/main.gpl', *words, '-o', f'game/{name}')
                self.assertEqual(ended.returncode, 2, name)
                self.assertEqual((self.folder / 'game' / name).read_bytes(), FILES[name])

    def test_watch_takes_and_shows_the_author_s_names(self):
        ended = self.call('watch', '--all', 'game/main.gpl', '99', 'pc:start.LOOP', 'pad:N')
        self.assertEqual((ended.returncode, ended.stderr), (0, b''))
        rows = ended.stdout.decode().splitlines()
        self.assertEqual(rows[:4], ['game/board.gpl:3: step 1 at >6000 (game/board.gpl:2): pc:start.LOOP is reached',
                                    '    .loop  DEC  @N',
                                    'game/board.gpl:2: step 1 at >6000: pad:N >8301=03', '    START  ST   @N,3'])
        self.assertEqual(rows[-3:], ['game/board.gpl:5: step 8 at >6007: pad:N >8301=07', '           ST   @N,7',
                                     'game/board.gpl:5: note: in PUT of game/macros.gpl:3'])

    def test_names_are_defined(self):
        self.changed('board.gpl', b'@N,3', b'@N,LIVES')
        self.assertEqual(self.call('assemble', 'game/main.gpl').returncode, 1)
        self.assertEqual(self.call('assemble', '-D', 'LIVES=9', 'game/main.gpl').stdout[:3], b'\xBE\x01\x09')
        ended = self.call('assemble', '-D', 'LIVES=9', '-D', 'N=1', 'game/main.gpl')
        self.assertEqual(ended.stderr, b'game/board.gpl:1: duplicate label\n    N      EQU  >8301\n'
                                       b'game/board.gpl:1: note: N has its value from -D N\n')
        self.file('a.a', b' END\n')
        self.assertEqual(self.call('steps', '--exec', '-D', 'A', 'a.a').returncode, 2)

    def test_a_line_of_which_several_are_made_is_once_on_a_page(self):
        self.file('game/bytes', bytes(range(40)))
        self.changed('board.gpl', b'       EXIT\n', b'       EXIT\nHERE   PUT  N,8\nDATA1  BIN  "bytes"\n')
        page = self.call('steps', 'game/main.gpl').stdout.decode()
        lines = json.loads(re.search(r'>(\{"kind".*?)</script>', page, re.S)[1])['lines']
        names = [called for _, _, _, called in lines]
        self.assertEqual(len(names), len(set(names)))
        found = {called: (text, at, digits) for text, at, digits, called in lines}
        self.assertEqual(found['board.gpl:7'], ('HERE   PUT  N,8', 0x600B, ''))
        self.assertEqual(found['board.gpl:7 PUT:3'], ('       ST   @N,8', 0x600B, 'be0108'))
        self.assertEqual(found['board.gpl:8'], ('DATA1  BIN  "bytes"', 0x600E, bytes(range(40)).hex()))

    def test_each_line_of_a_page_is_one_of_its_file(self):
        """Each line of the page of examples/lights has the text of the line that it is called by."""
        ended = self.call('steps', '-D', 'BENCH', LIGHTS / 'lights.gpl', '100')
        self.assertEqual((ended.returncode, ended.stderr), (0, b''))
        data = json.loads(re.search(r'>(\{"kind".*?)</script>', ended.stdout.decode(), re.S)[1])
        texts = {path.name: path.read_text().splitlines() for path in LIGHTS.glob('*.gpl')}
        seen = set()
        self.assertEqual(data['lines'][0][3], '-D BENCH')
        for text, _, _, called in data['lines'][1:]:
            place, *within = called.split(' ')
            file, number = place.split(':')
            if within:
                macro, line = within[0].split(':')
                self.assertIn(macro, texts[file][int(number) - 1].split())
                # the first word of the macro's line that has no operand in it
                macros = texts['console.gpl' if macro in ('SCAN', 'KEYS', 'KEY', 'ENDKEY') else 'macros.gpl']
                self.assertEqual(text.split()[:1], macros[int(line) - 1].split()[:1])
            else:
                self.assertEqual(text, texts[file][int(number) - 1])
                seen.add((file, int(number)))
        # all lines are there but those of definitions, of IFDEF and those that it leaves out
        for name in set(texts) - {'console.gpl', 'macros.gpl'}:
            self.assertEqual({number for file, number in seen if file == name}, set(range(1, len(texts[name]) + 1)))
        self.assertIn('PLAY.won', [name for name, _, _ in data['names']])
