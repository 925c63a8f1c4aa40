"""Tests of sessions with tools/lsp: frames, wrong messages, cancelling, ends, folders for temporary files, sizes."""
import json
import os
import pathlib
import random
import signal
import subprocess
import time

from calling import TOOLS
from lsp_client import Client, place, span
from serving import runs, text, tokens
from test_lsp import ADDING, GOOD, MAIN, Served


class Messages(Served):
    def test_a_body_that_is_no_json_is_answered_and_the_session_goes_on(self):
        self.client.write(b'{"jsonrpc":')
        self.assertEqual(self.client.answer(None)['error']['code'], -32700)
        self.client.write(b'[1]')
        self.assertEqual(self.client.answer(None)['error']['code'], -32600)
        self.client.write(b'[' * 100000)
        self.assertEqual(self.client.answer(None)['error']['code'], -32700)
        self.assertEqual(self.client.ask('nothing/here', {})['error']['code'], -32601)
        self.assertEqual(self.client.ask('textDocument/hover', {'x': 1})['error']['code'], -32602)
        self.assertEqual(self.client.ask('textDocument/hover', [1])['error']['code'], -32602)
        self.assertEqual(self.client.end(), 0)

    def test_other_heads_are_taken_and_one_without_a_length_ends_the_session(self):
        body = json.dumps({'jsonrpc': '2.0', 'id': 'a', 'method': 'x/y'}).encode()
        self.client.process.stdin.write(b'Content-Type: x\r\ncontent-length: %d\r\n\r\n%s' % (len(body), body))
        self.client.process.stdin.flush()
        self.assertEqual(self.client.answer('a')['error']['code'], -32601)
        self.client.process.stdin.write(b'Content-Length: many\r\n\r\n')
        self.client.process.stdin.flush()
        self.assertEqual(self.client.closed(), 1)

    def test_an_end_in_the_middle_of_a_message_ends_it(self):
        self.client.open('a.gpl', GOOD)
        self.client.process.stdin.write(b'Content-Length: 100\r\n\r\n{"jsonrpc"')
        self.client.process.stdin.flush()
        self.client.process.stdin.close()
        self.assertEqual(self.client.process.wait(timeout=20), 1)

    def test_a_request_that_is_cancelled_ends(self):
        slow = self.file('slow/ti_debug', b'#!/bin/sh\nexec sleep 60\n')
        slow.chmod(0o755)
        client = self.begin(TI_DEBUG=str(slow))
        client.open('a.gpl', GOOD)
        number = client.begin('textDocument/hover', {'textDocument': {'uri': client.uri('a.gpl')},
                                                     'position': place(3, 13)})
        client.notify('$/cancelRequest', {'id': number})
        self.assertEqual(client.answer(number)['error']['code'], -32800)
        began = time.monotonic()
        self.assertEqual(client.end(), 0)
        self.assertLess(time.monotonic() - began, 10)

    def test_a_signal_ends_it_with_its_folder(self):
        self.client = self.begin(TMPDIR=str(self.folder))
        self.client.open('a.gpl', GOOD)
        self.client.diagnostics('a.gpl')
        self.assertEqual(len(list(self.folder.glob('ti_bench-lsp-*'))), 1)
        self.client.process.send_signal(signal.SIGTERM)
        self.assertEqual(self.client.process.wait(timeout=20), 128 + signal.SIGTERM)
        self.assertEqual(list(self.folder.glob('ti_bench-lsp-*')), [])

    def test_wrong_words_and_a_closed_output(self):
        ended = subprocess.run([TOOLS / 'lsp', 'x'], input=b'', capture_output=True)
        self.assertEqual(ended.returncode, 2)
        ended = subprocess.run([TOOLS / 'lsp'], stdin=subprocess.DEVNULL, capture_output=True)
        self.assertEqual((ended.returncode, ended.stdout), (1, b''))


class Folders(Served):
    def test_the_folder_is_gone_after_shutdown_and_one_that_was_killed_is_swept(self):
        client = self.begin(TMPDIR=str(self.folder))
        client.open('a.gpl', GOOD)
        client.diagnostics('a.gpl')
        client.process.kill()
        client.process.wait()
        left = list(self.folder.glob('ti_bench-lsp-*'))
        self.assertEqual(len(left), 1)
        runs.sweep(self.folder)
        self.assertTrue(left[0].exists(), 'it may be one that is just made')
        os.utime(left[0], (1, 1))
        other = self.begin(TMPDIR=str(self.folder))
        self.assertFalse(left[0].exists())
        other.open('a.gpl', GOOD)
        other.diagnostics('a.gpl')
        held = list(self.folder.glob('ti_bench-lsp-*'))
        os.utime(held[0], (1, 1))
        runs.sweep(self.folder)
        self.assertTrue(held[0].exists(), 'its server lives')
        self.assertEqual(other.end(), 0)
        self.assertEqual(list(self.folder.glob('ti_bench-lsp-*')), [])

    def test_nothing_of_the_sources_is_written(self):
        self.file('ADDING.SRC', ADDING.encode())
        self.client.open('main.a99', MAIN)
        self.client.diagnostics('main.a99', 0)
        self.client.result('rename', 'main.a99', 3, 16, newName='TOTAL')
        self.assertEqual(self.client.end(), 0)
        self.assertEqual([it.name for it in self.folder.iterdir()], ['ADDING.SRC'])
        self.assertEqual((self.folder / 'ADDING.SRC').read_bytes(), ADDING.encode())

    def test_links_and_pipes_are_no_files_of_a_source(self):
        (self.folder / 'ADDING.SRC').symlink_to('/etc/hostname')
        os.mkfifo(self.folder / 'pipe.a99')
        self.client.open('main.a99', MAIN)
        self.assertEqual(self.client.diagnostics('main.a99', 3)[0], (3, 'missing ADDING.SRC'))


class Texts(Served):
    def test_columns_are_in_units_of_utf_16(self):
        source = "* \U0001f600\n TEXT '\U0001f600\u00e4'\nX CLR @>8300 \U0001f600\n BR X\n"
        self.client.open('a.gpl', source)
        self.assertEqual(self.client.diagnostics('a.gpl', 0), [])
        self.client.change('a.gpl', (span(1, 9, 10), 'x'), (span(0, 2, 4), '!'))
        self.assertIn('78', self.client.result('hover', 'a.gpl', 1, 2)['contents']['value'])
        line = 'a\U0001f600b'
        self.assertEqual([text.units(line, it) for it in range(4)], [0, 1, 3, 4])
        self.assertEqual([text.column(line, it) for it in range(6)], [0, 1, 1, 2, 3, 3])

    def test_a_file_in_latin_1_keeps_its_bytes(self):
        data = " TEXT '\u00e4'\n".encode('latin-1')
        self.file('a.gpl', data)
        self.client.open('a.gpl', data.decode('latin-1'))
        self.assertIn('`>6000 E4`', self.client.result('hover', 'a.gpl', 0, 2)['contents']['value'])

    def test_many_changes_come_to_the_text_that_the_editor_has(self):
        dice, lines = random.Random(5), GOOD.split('\n')
        document = text.Document('file:///a.gpl', 'ti99gpl', 1, lines)
        whole = GOOD
        for version in range(200):
            lines = whole.split('\n')
            first = dice.randrange(len(lines))
            last = min(len(lines) - 1, first + dice.randrange(3))
            start = dice.randrange(len(lines[first]) + 1)
            end = dice.randrange(start if first == last else 0, len(lines[last]) + 1)
            new = dice.choice(['', 'x', '\u00e4\n\U0001f600', '\n', ' COPY "A"\n'])
            before = '\n'.join(lines[:first] + [lines[first][:start]])
            after = '\n'.join([lines[last][end:]] + lines[last + 1:])
            change = {'range': {'start': place(first, text.units(lines[first], start)),
                                'end': place(last, text.units(lines[last], end))}, 'text': new}
            whole, document = before + new + after, document.changed(version, [change])
            self.assertEqual('\n'.join(document.lines), whole)


class Lines(Served):
    def test_no_line_is_too_strange_for_the_fields(self):
        dice, letters = random.Random(7), ' \t*@\'",.\\()<>$+-/_;:0179AaFRVGXz\u00e4\U0001f600\r'
        for _ in range(30000):
            line = ''.join(dice.choice(letters) for _ in range(dice.randrange(40)))
            for language in ('gpl', 'asm'):
                fields = tokens.parts(language, line)
                for kind, start, end in fields.tokens if fields else ():
                    self.assertTrue(0 <= start <= end <= len(line), (kind, line))
                tokens.field_at(line, dice.randrange(len(line) + 1))
                tokens.set_out(language, line)
            tokens.parts.cache_clear()

    def test_a_long_source_is_answered(self):
        body = ''.join('* a comment\n' if number % 10 else f'L{number} INC @>8300\n' for number in range(20000))
        self.client.open('a.gpl', body + '       EXIT\n')
        self.assertEqual(self.client.diagnostics('a.gpl', 0), [])
        self.client.change('a.gpl', (span(9000, 0, 0), '       FOO\n'))
        self.assertEqual(self.client.diagnostics('a.gpl', 1), [(9001, 'unknown operation')])
        self.assertIn('L19990', self.client.result('hover', 'a.gpl', 19991, 1)['contents']['value'])


class Installed(Served):
    def test_the_manual_page_names_what_it_answers(self):
        page = (pathlib.Path(TOOLS).parent / 'man/ti_bench-lsp.1').read_text().replace('\\-', '-')
        for name in ('debounce', 'columns', 'defines', 'TI_BENCH', 'TI_DEBUG'):
            self.assertIn(name, page)
        self.assertIn('hoverProvider', self.client.capabilities)
        self.assertIsInstance(self.client, Client)
