"""Tests of what tools/lsp shows: refusals, hover, places of names, symbols, completion, and lines above labels."""
import os
import shutil
import unittest

from calling import Calling
from lsp_client import Client, place, span

GOOD = """* The lives that are left
LIVES  EQU  >8302            a cell
* Where it begins
START  ST   @LIVES,3
LOOP   DEC  @LIVES
       BR   LOOP
       EXIT
       END  START
"""
MAIN = """       DEF  START
       REF  VDPWD
       COPY "ADDING.SRC"
START  LI   R1,SUM
       BL   @ADD
       DATA VDPWD
       END  START
"""
ADDING = """* adds
SUM    EQU  >8300
ADD    A    @SUM,R1
       RT
"""
EXPANDED = """       COPY "mac.gpl"
       CELLS >8300,>830F
LIVES  CELL 1
START  SET  @LIVES,3
.loop  DEC  @LIVES
       BR   .loop
NEXT   CLR  @LIVES
.loop  INC  @LIVES
       BR   .loop
       EXIT
       END  START
"""
MACROS = """* SET gives a cell a value
SET    MACRO WHERE,VALUE
       ST   \\WHERE,\\VALUE
       ENDM
"""


class Served(Calling):
    """Tests with a session."""

    def setUp(self):
        super().setUp()
        self.client = self.begin()

    def begin(self, options=None, **more):
        client = Client(self.folder, options, **more)
        self.addCleanup(client.process.kill)
        return client

    def says(self, name, line, column):
        found = self.client.result('hover', name, line, column)
        return found and found['contents']['value']


class Refusals(Served):
    def test_each_is_shown_with_its_note_and_its_columns(self):
        self.client.open('a.gpl', GOOD)
        self.assertEqual(self.client.diagnostics('a.gpl'), [])
        self.client.change('a.gpl', (span(5, 0, 0), '       FOO\n       ST   @LIVES, 5\n       CLR  @NONE\n'))
        self.assertEqual(self.client.diagnostics('a.gpl', 3), [
            (6, 'unknown operation'), (7, 'bad operand\nnote: a blank ends the operands; write none after a comma'),
            (8, 'unknown name')])
        columns = [(it['range']['start']['character'], it['range']['end']['character'], it['severity'])
                   for it in self.client.told[self.client.uri('a.gpl')]]
        self.assertEqual(columns, [(7, 10, 1), (12, 19, 1), (13, 17, 1)])
        self.client.change('a.gpl', GOOD)
        self.assertEqual(self.client.diagnostics('a.gpl', 0), [])

    def test_no_more_than_twenty(self):
        self.client.open('a.gpl', '       FOO\n' * 30)
        self.assertEqual(len(self.client.diagnostics('a.gpl', 20)), 20)

    def test_the_place_where_a_label_has_its_value_is_named(self):
        self.client.open('a.gpl', GOOD.replace('LOOP   DEC', 'START  DEC').replace('LOOP', 'START'))
        self.assertEqual(self.client.diagnostics('a.gpl', 1),
                         [(5, 'duplicate label\nnote: START has its value from line 4')])
        related = self.client.wait(
            lambda: self.client.told[self.client.uri('a.gpl')][0].get('relatedInformation'))
        self.assertEqual([it['location']['range']['start']['line'] for it in related], [3])

    def test_copied_files_have_theirs_also_while_they_are_typed(self):
        self.file('ADDING.SRC', ADDING.encode())
        self.client.open('main.a99', MAIN)
        self.assertEqual(self.client.diagnostics('main.a99', 0), [])
        self.client.open('ADDING.SRC', ADDING)
        self.client.change('ADDING.SRC', ADDING.replace('R1', 'R33'))
        self.assertEqual(self.client.diagnostics('ADDING.SRC', 1), [(3, 'unknown name')])
        self.client.change('main.a99', MAIN.replace('LI ', 'LJ '))
        self.assertEqual(self.client.diagnostics('main.a99', 1), [(4, 'unknown operation')])
        self.assertEqual(self.client.diagnostics('ADDING.SRC', 1), [(3, 'unknown name')])
        self.client.change('ADDING.SRC', ADDING)
        self.assertEqual(self.client.diagnostics('ADDING.SRC', 0), [])

    def test_a_copied_file_that_is_missing_is_named_with_what_comes_of_it(self):
        self.client.open('main.a99', MAIN)
        found = self.client.diagnostics('main.a99', 3)
        self.assertEqual(found[0], (3, 'missing ADDING.SRC'))
        self.assertIn('this may come of line 3, which is left out', found[1][1])
        self.file('ADDING.SRC', ADDING.encode())
        self.client.notify('workspace/didChangeWatchedFiles', {'changes': []})
        self.assertEqual(self.client.diagnostics('main.a99', 0), [])

    def test_expanded_parts_have_theirs_with_the_line_of_the_macro(self):
        self.file('mac.gpl', MACROS.encode())
        self.client.open('a.gpl', EXPANDED)
        self.assertEqual(self.client.diagnostics('a.gpl', 0), [])
        self.client.change('a.gpl', EXPANDED.replace('@LIVES,3', '@NONE,3').replace('.loop\nNEXT', '.lop\nNEXT'))
        self.assertEqual([line for line, _ in self.client.diagnostics('a.gpl', 2)], [6, 4])
        found = self.client.told[self.client.uri('a.gpl')]
        self.assertIn('there is no', found[0]['message'])
        self.assertEqual([it['location']['range']['start']['line'] for it in found[1]['relatedInformation']], [2])

    def test_warnings_come_once_the_keys_rest(self):
        self.client.open('a.gpl', GOOD.replace('EXIT\n', 'DEC  @LIVES\n       CZ   @LIVES\n       EXIT\n'))
        found = self.client.diagnostics('a.gpl', 1)
        self.assertEqual(found[0][0], 8)
        self.assertIn('[again]', found[0][1])
        self.assertEqual(self.client.told[self.client.uri('a.gpl')][0]['severity'], 2)

    def test_a_text_that_another_takes_in_is_no_source_of_its_own_any_more(self):
        self.client.open('ADDING.SRC', ADDING.replace('SUM    EQU  >8300', '* none'))
        self.client.diagnostics('ADDING.SRC', 1)
        self.client.open('main.a99', 'SUM EQU 2\n' + MAIN)
        self.assertEqual(self.client.diagnostics('main.a99', 0), [])
        self.assertEqual(self.client.diagnostics('ADDING.SRC', 0), [])
        self.client.notify('textDocument/didClose', {'textDocument': {'uri': self.client.uri('main.a99')}})
        self.assertEqual(self.client.diagnostics('ADDING.SRC', 1), [(3, 'unknown name')])

    def test_a_closed_text_has_none(self):
        self.client.open('a.gpl', ' FOO\n')
        self.client.diagnostics('a.gpl', 1)
        self.client.notify('textDocument/didClose', {'textDocument': {'uri': self.client.uri('a.gpl')}})
        self.assertEqual(self.client.diagnostics('a.gpl', 0), [])


class Places(Served):
    def test_hover_of_a_name_has_its_value_its_line_and_what_is_said_before(self):
        self.client.open('a.gpl', GOOD)
        said = self.says('a.gpl', 3, 13)
        for part in ('**LIVES** `>8302`', 'LIVES  EQU  >8302            a cell', 'The lives that are left', '*line 2*',
                     'line 4: `>6000 BE 02 03`'):
            self.assertIn(part, said)
        self.assertIsNone(self.says('a.gpl', 0, 3))

    def test_hover_of_an_operation_has_its_sentence_its_status_and_its_code(self):
        self.client.open('a.gpl', GOOD)
        said = self.says('a.gpl', 4, 8)
        for part in ('**DEC** in memory', '1 is subtracted from the operand.', 'Code: `>92`', 'H, GT, COND, CARRY'):
            self.assertIn(part, said)

    def test_assembler_names_have_their_kind(self):
        self.file('ADDING.SRC', ADDING.encode())
        self.client.open('main.a99', MAIN)
        self.assertIn('**SUM** absolute `>8300`', self.says('main.a99', 3, 16))
        self.assertIn('*line 2 of ADDING.SRC*', self.says('main.a99', 3, 16))
        self.assertIn('**VDPWD** external', self.says('main.a99', 5, 13))
        self.assertIn('**START** relocatable', self.says('main.a99', 3, 1))
        found = self.client.result('definition', 'main.a99', 5, 13)
        self.assertEqual([it['range']['start'] for it in found], [place(1, 12)])

    def test_definitions_and_references_go_over_files(self):
        self.file('ADDING.SRC', ADDING.encode())
        self.client.open('main.a99', MAIN)
        found = self.client.result('definition', 'main.a99', 3, 16)
        self.assertEqual([(os.path.basename(it['uri']), it['range']['start']['line']) for it in found],
                         [('ADDING.SRC', 1)])
        found = self.client.result('references', 'main.a99', 3, 16, context={'includeDeclaration': True})
        self.assertEqual(sorted((os.path.basename(it['uri']), it['range']['start']['line']) for it in found),
                         [('ADDING.SRC', 1), ('ADDING.SRC', 2), ('main.a99', 3)])
        found = self.client.result('definition', 'main.a99', 2, 14)
        self.assertEqual([os.path.basename(it['uri']) for it in found], ['ADDING.SRC'])
        self.assertEqual(len(self.client.result('documentHighlight', 'main.a99', 3, 1)), 3)

    def test_local_labels_and_macros_have_their_own_places(self):
        self.file('mac.gpl', MACROS.encode())
        self.client.open('a.gpl', EXPANDED)
        found = self.client.result('references', 'a.gpl', 5, 13, context={'includeDeclaration': True})
        self.assertEqual([it['range']['start']['line'] for it in found], [4, 5])
        found = self.client.result('references', 'a.gpl', 7, 2, context={'includeDeclaration': True})
        self.assertEqual([it['range']['start']['line'] for it in found], [7, 8])
        found = self.client.result('definition', 'a.gpl', 3, 8)
        self.assertEqual([(os.path.basename(it['uri']), it['range']['start']['line']) for it in found],
                         [('mac.gpl', 1)])
        self.assertIn('**SET** WHERE, VALUE', self.says('a.gpl', 3, 8))
        self.assertIn('BE 00 03', self.says('a.gpl', 3, 8))
        self.assertIn('**START.loop** `>6003`', self.says('a.gpl', 5, 13))

    def test_lines_after_the_end_are_not_read(self):
        self.client.open('a.gpl', GOOD + '       BR   LOOP\n')
        found = self.client.result('references', 'a.gpl', 4, 1, context={'includeDeclaration': True})
        self.assertEqual([it['range']['start']['line'] for it in found], [4, 5])


class Shown(Served):
    def test_symbols_are_by_line_with_their_kind(self):
        self.file('ADDING.SRC', ADDING.encode())
        self.client.open('a.gpl', GOOD)
        found = self.client.result('documentSymbol', 'a.gpl')
        self.assertEqual([(it['name'], it['kind'], it['detail']) for it in found],
                         [('LIVES', 14, '>8302'), ('START', 12, '>6000'), ('LOOP', 12, '>6003')])
        found = self.client.ask('workspace/symbol', {'query': 'lo'})['result']
        self.assertEqual([it['name'] for it in found], ['LOOP'])

    def test_completion_goes_by_the_field(self):
        self.client.open('a.gpl', GOOD)
        self.client.open('b.a99', ' d')
        labels = {it['label']: it['detail'] for it in self.client.result('completion', 'a.gpl', 6, 8)}
        self.assertEqual(labels['DCEQ'], 'destination in memory, source in memory or immediate')
        self.assertNotIn('LIVES', labels)
        labels = {it['label']: it['detail'] for it in self.client.result('completion', 'a.gpl', 3, 13)}
        self.assertEqual(labels, {'LIVES': '>8302', 'START': '>6000', 'LOOP': '>6003'})
        self.assertIn('dect', {it['label'] for it in self.client.result('completion', 'b.a99', 0, 2)})
        self.assertEqual(self.client.result('completion', 'a.gpl', 0, 5), [])
        said = self.client.result('signatureHelp', 'a.gpl', 3, 12)
        self.assertEqual(said['signatures'][0]['label'], 'ST destination in memory, source in memory or immediate')

    def test_lines_above_labels(self):
        self.client.open('a.gpl', GOOD)
        found = self.client.result('codeLens', 'a.gpl')
        self.assertEqual([(it['range']['start']['line'], it['command']['title']) for it in found],
                         [(1, '>8302  2 uses'), (3, '>6000 BE 02 03  1 use'), (4, '>6003 92 02  1 use')])

    def test_lines_that_never_ran_are_shown_as_long_as_the_file_is_the_text(self):
        self.file('a.gpl', GOOD.encode())
        self.client.open('a.gpl', GOOD)
        self.file('a.info', f'SF:{self.folder}/a.gpl\nDA:4,1\nDA:5,0\nDA:6,0\nDA:7,1\nend_of_record\n'.encode())

        def found():
            return [it['command']['title'] for it in self.client.result('codeLens', 'a.gpl')
                    if 'never' in it['command']['title']]
        self.assertEqual(found(), ['never executed: lines 5 to 6 (a.info)'])
        self.client.change('a.gpl', (span(0, 0, 0), '*\n'))
        self.assertEqual(found(), [])

    def test_a_test_is_run_from_the_line_above_it(self):
        text = ('LIVES  EQU  >8302\n*! test less\n*!  LIVES -> LIVES\n*!  3        2\nLESS   DEC  @LIVES\n       RTN\n'
                'START  CALL LESS\n       EXIT\n       END  START\n')
        self.client.open('a.gpl', text)
        lens = next(it for it in self.client.result('codeLens', 'a.gpl') if 'run' in it['command']['title'])
        self.assertEqual((lens['range']['start']['line'], lens['command']['title']), (1, 'run the test less'))
        given = {'command': lens['command']['command'], 'arguments': lens['command']['arguments']}
        self.assertIn('1', self.client.ask('workspace/executeCommand', given)['result'])
        self.assertEqual(self.shown(), [3])
        self.client.change('a.gpl', text.replace('3        2', '3        1'))
        self.client.ask('workspace/executeCommand', given)
        self.assertEqual(self.shown(), [3, 1])

    def shown(self):
        """The kinds of the messages that are shown."""
        return [it['params']['type'] for it in self.client.asked if it['method'] == 'window/showMessage']

    def test_hints_folds_links_and_tokens(self):
        self.file('ADDING.SRC', ADDING.encode())
        self.client.open('main.a99', MAIN)
        found = self.client.result('inlayHint', 'main.a99', range={'start': place(3, 0), 'end': place(3, 9)})
        self.assertEqual([it['label'] for it in found], [">0006' 0201 8300"])
        found = self.client.result('documentLink', 'main.a99')
        self.assertEqual([(it['range'], os.path.basename(it['target'])) for it in found],
                         [(span(2, 13, 23), 'ADDING.SRC')])
        self.assertEqual(len(self.client.result('foldingRange', 'main.a99')), 1)
        self.assertEqual(self.client.result('semanticTokens/full', 'main.a99')['data'][:10],
                         [0, 7, 3, 2, 0, 0, 5, 5, 4, 0])


class Programs(Served):
    def test_without_a_program_it_says_so_and_builds_none(self):
        client = self.begin(False, TI_BENCH=str(self.folder / 'none'))
        found = client.ask('initialize', {'capabilities': {}})
        self.assertIn('no program', found['error']['message'])
        self.assertEqual(client.ask('textDocument/hover', {})['error']['code'], -32002)

    def test_a_report_that_is_none_is_said(self):
        lying = self.file('lying/ti_debug', b"#!/bin/sh\ncat > /dev/null\necho 'name >83XX       1 LIVES'\n")
        lying.chmod(0o755)
        client = self.begin(TI_DEBUG=str(lying))
        client.open('a.gpl', GOOD)
        found = client.request('hover', 'a.gpl', 3, 13)
        self.assertEqual(found['error']['message'], 'no line of a listing: name >83XX       1 LIVES')

    def test_a_program_that_is_gone_is_said(self):
        lost = self.folder / 'ti_debug'
        shutil.copy(shutil.which('true'), lost)
        client = self.begin(TI_DEBUG=str(lost))
        lost.unlink()
        client.open('a.gpl', GOOD)
        client.wait(lambda: any('ti_bench-lsp' in it['params'].get('message', '') for it in client.asked))


if __name__ == '__main__':
    unittest.main()
