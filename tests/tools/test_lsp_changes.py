"""Tests of what tools/lsp changes: names, columns, and refused lines. All is checked by assembling."""
import os
import pathlib

from lib.program import program
from lsp_client import span
from test_lsp import ADDING, EXPANDED, GOOD, MACROS, MAIN, Served


def edited(texts, found):
    """Texts by their URI after an edit of the protocol; all changes of a text are of the text before."""
    made = dict(texts)
    for change in found['documentChanges']:
        uri = change['textDocument']['uri']
        made[uri] = with_edits(made[uri], change['edits'])
    return made


def with_edits(text, edits):
    lines = text.split('\n')
    for it in sorted(edits, key=lambda it: tuple(it['range']['start'].values()), reverse=True):
        start, end = it['range']['start'], it['range']['end']
        assert start['line'] == end['line']
        line = lines[start['line']].encode('utf-16-le')
        lines[start['line']] = (line[:2 * start['character']] + it['newText'].encode('utf-16-le')
                                + line[2 * end['character']:]).decode('utf-16-le')
    return '\n'.join(lines)


class Renaming(Served):
    def refused(self, name, line, column, new):
        return self.client.request('rename', name, line, column, newName=new)['error']['message']

    def renamed(self, name, line, column, new, **texts):
        found = self.client.result('rename', name, line, column, newName=new)
        return edited({self.client.uri(it): text for it, text in texts.items()}, found)

    def test_each_place_gets_the_new_name_and_comments_keep_their_columns(self):
        self.client.open('a.gpl', GOOD)
        found = self.client.result('prepareRename', 'a.gpl', 3, 14)
        self.assertEqual(found, {'range': span(3, 13, 18), 'placeholder': 'LIVES'})
        found = self.client.result('rename', 'a.gpl', 3, 14, newName='N')
        made = edited({self.client.uri('a.gpl'): GOOD}, found)[self.client.uri('a.gpl')]
        self.assertEqual(made, GOOD.replace('LIVES  EQU', 'N      EQU').replace('@LIVES', '@N'))

    def test_what_would_change_the_bytes_is_refused_with_the_cause(self):
        self.client.open('a.gpl', GOOD)
        self.assertEqual(self.refused('a.gpl', 3, 14, 'LOOP'),
                         'LIVES is not renamed: the source would be refused, line 5: duplicate label')
        self.assertEqual(self.refused('a.gpl', 3, 14, 'LIVES7X'),
                         'LIVES7X is no name: a name is a letter and up to five letters or digits')
        self.assertEqual(self.refused('a.gpl', 3, 14, 'r9'), 'r9 is a register')
        self.assertEqual(self.refused('a.gpl', 6, 8, 'X'), 'here is no name of this source')
        self.client.change('a.gpl', GOOD.replace('EXIT', 'EXIST'))
        self.assertEqual(self.refused('a.gpl', 3, 14, 'X'),
                         'LIVES is not renamed: the source is refused as it is, line 7: unknown operation')

    def test_names_of_other_modules_stay(self):
        self.file('ADDING.SRC', ADDING.encode())
        self.client.open('main.a99', MAIN)
        self.assertEqual(self.refused('main.a99', 3, 1, 'BEGIN'),
                         'START is not renamed: other modules know it, since a line DEF has it')

    def test_copied_files_are_changed_too(self):
        self.file('ADDING.SRC', ADDING.encode())
        self.client.open('main.a99', MAIN)
        found = self.client.result('rename', 'main.a99', 3, 16, newName='TOTAL')
        made = edited({self.client.uri('main.a99'): MAIN, self.client.uri('ADDING.SRC'): ADDING}, found)
        self.assertEqual(made[self.client.uri('main.a99')], MAIN.replace('SUM', 'TOTAL'))
        self.assertEqual(made[self.client.uri('ADDING.SRC')],
                         ADDING.replace('SUM    EQU', 'TOTAL  EQU').replace('@SUM', '@TOTAL'))

    def test_local_labels_and_macros(self):
        self.file('mac.gpl', MACROS.encode())
        self.client.open('a.gpl', EXPANDED)
        uri, other = self.client.uri('a.gpl'), self.client.uri('mac.gpl')
        found = self.client.result('rename', 'a.gpl', 5, 13, newName='.again')
        made = edited({uri: EXPANDED}, found)[uri]
        self.assertEqual(made, EXPANDED.replace('.loop  DEC', '.again DEC').replace('.loop\nNEXT', '.again\nNEXT'))
        found = self.client.result('rename', 'a.gpl', 3, 8, newName='PUT_IT')
        made = edited({uri: EXPANDED, other: MACROS}, found)
        self.assertEqual(made[uri], EXPANDED.replace('SET  @', 'PUT_IT @'))
        self.assertEqual(made[other], MACROS.replace('SET    MACRO', 'PUT_IT MACRO'))
        self.assertIn('is no local label', self.refused('a.gpl', 5, 13, 'AGAIN'))

    def test_a_file_of_two_sources_is_checked_in_both(self):
        self.file('ADDING.SRC', ADDING.encode())
        self.file('other.a99', MAIN.replace('START', 'TOTAL').encode())
        self.client.open('main.a99', MAIN)
        self.client.open('ADDING.SRC', ADDING)
        self.assertIn('duplicate label', self.refused('ADDING.SRC', 1, 1, 'TOTAL'))
        found = self.client.result('rename', 'ADDING.SRC', 1, 1, newName='RESULT')
        self.assertEqual(sorted(os.path.basename(it['textDocument']['uri']) for it in found['documentChanges']),
                         ['ADDING.SRC', 'main.a99', 'other.a99'])


class Formatting(Served):
    def test_fields_go_to_their_columns(self):
        self.client.open('a.gpl', ' st @>8300,1 one\nLOOP dec @>8300\r\n*  a comment  \n\n end\n')
        found = self.client.result('formatting', 'a.gpl', options={})
        self.assertEqual(with_edits(' st @>8300,1 one\nLOOP dec @>8300\r\n*  a comment  \n\n end\n', found),
                         '       st   @>8300,1          one\nLOOP   dec  @>8300\r\n*  a comment\n\n       end\n')
        found = self.client.result('rangeFormatting', 'a.gpl', range=span(1, 0, 3), options={})
        self.assertEqual({it['range']['start']['line'] for it in found}, {1})

    def test_a_refused_source_is_left_as_it_is(self):
        self.client.open('a.gpl', ' FOO\n')
        self.assertIn('the source is refused as it is', self.client.request('formatting', 'a.gpl')['error']['message'])

    def test_columns_are_the_editors(self):
        self.client = self.begin({'columns': [9, 14, 25]})
        self.client.open('a.gpl', ' exit it ends\n')
        found = self.client.result('formatting', 'a.gpl', options={})
        self.assertEqual(with_edits(' exit it ends\n', found), '        exit            it ends\n')


class Actions(Served):
    LINES = [('gpl', ' ST @>8300, 5 five', ' ST @>8300,5 five'), ('gpl', ' ST @>8300,0x1f', ' ST @>8300,>1F'),
             ('gpl', ' DST @>8300,$1f', ' DST @>8300,>1F'), ('gpl', 'AGAIN: EXIT', 'AGAIN EXIT'),
             ('gpl', '; says', '* says'), ('gpl', ' CLR VDP@>100', ' CLR V@>100'), ('gpl', ' B @>6000', ' B >6000'),
             ('gpl', " DATA 'words'", " TEXT 'words'"), ('gpl', ' TEXT "words"', " TEXT 'words'"),
             ('gpl', ' MOVE 1 , V@0 , G@>6000 one', ' MOVE 1,V@0,G@>6000 one'), ('a99', 'X B X', 'X B @X'),
             ('a99', ' COPY ADDING.SRC', ' COPY "ADDING.SRC"'),
             ('a99', ' COPY "DSK1.ADDING.SRC"', ' COPY "ADDING.SRC"'),
             ('gpl', 'LONGNAME EXIT', 'LONGNA EXIT')]

    def test_a_note_with_one_way_to_write_the_line_has_it_as_an_action(self):
        self.file('ADDING.SRC', b'SUM EQU 1\n')
        for number, (ending, line, wanted) in enumerate(self.LINES):
            name = f'a{number}.{ending}'
            text = f'* a source\n{line}\n'
            self.client.open(name, text)
            found = self.client.result('codeAction', name, range=span(1, 0, 1), context={'diagnostics': []})
            made = [edited({self.client.uri(name): text}, it['edit'])[self.client.uri(name)] for it in found]
            self.assertEqual(made, [f'* a source\n{wanted}\n'], line)

    def test_there_is_none_that_does_not_help(self):
        self.client.open('a.gpl', ' ST @>8300, 5,5\n EXIT\n')
        found = self.client.result('codeAction', 'a.gpl', range=span(0, 0, 1), context={'diagnostics': []})
        self.assertEqual(found, [])


class Bytes(Served):
    def test_the_lights_keep_their_bytes_through_renaming_and_formatting(self):
        folder = pathlib.Path(__file__).resolve().parents[2] / 'examples/lights'
        for path in folder.iterdir():
            if path.is_file():
                self.file(path.name, path.read_bytes())
        self.client = self.begin()
        text = (folder / 'lights.gpl').read_text()
        self.client.open('lights.gpl', text)
        self.assertEqual(self.client.diagnostics('lights.gpl', 0), [])
        self.assertIsInstance(self.client.result('formatting', 'lights.gpl', options={}), list)
        self.assertTrue(program().path)
