"""Tests of tools/editors and of the files in editors/."""
import itertools
import json
import os
import re
import shutil
import subprocess
import unittest

from calling import TOP, Calling
from editing import names
from expanding.names import FORMS
from lib.program import program
from lib.repository import read_text

LANGUAGES = {'ti99gpl': ('gasm', names.gpl()), 'ti99asm': ('asm', names.assembler())}
VSCODE = TOP / 'editors/vscode'

# Lines of both languages, and the parts that each has.
LINES = {
    'ti99gpl': [
        ('* A comment', 'comment:* A comment'),
        ('', ''),
        ("START  ST   @COUNT,5  it's all", "label:START operation:ST prefix:@ name:COUNT number:5 comment:it's all"),
        ("start\tdst\tV*>83aB(@R3),'A'",
         "label:start operation:dst prefix:V* number:>83aB prefix:@ register:R3 text:'A'"),
        (' MOVE 8+2,R@0,G@REGS', 'operation:MOVE number:8 operator:+ number:2 prefix:R@ number:0 prefix:G@ name:REGS'),
        (' B $-R15', 'operation:B here:$ operator:- register:R15'),
        (" EXIT 'a comment, @X", "operation:EXIT comment:'a comment, @X"),
        ('COUNT  EQU >8302 a cell', 'label:COUNT directive:EQU number:>8302 comment:a cell'),
        (" TEXT 'IT''S, ALL'  a text", "directive:TEXT text:'IT''S, ALL' comment:a text"),
        ('LABEL', 'label:LABEL'),
        ('LONGNAME RTN', 'bad:LONGNAME operation:RTN'),
        (' COPY "A"  a file', 'directive:COPY text:"A" comment:a file'),
        (" bin 'A.BIN'", "directive:bin text:'A.BIN'"),
        (' EVEN', 'macro:EVEN'),
        (' Say_It @A,\\ROW+1', 'macro:Say_It prefix:@ name:A parameter:\\ROW operator:+ number:1'),
        (' EVEN.', 'bad:EVEN.'),
        ('SAY_AGAIN MACRO ROW,A_LONG_WORD  it is', 'macro:SAY_AGAIN directive:MACRO parameter:ROW,A_LONG_WORD '
                                                   'comment:it is'),
        (' ENDM  and so on', 'directive:ENDM comment:and so on'),
        (' IF BENCH+1  so', 'directive:IF name:BENCH operator:+ number:1 comment:so'),
        (' IFDEF BENCH', 'directive:IFDEF name:BENCH'),
        (' else  or', 'directive:else comment:or'),
        (' ENDIF', 'directive:ENDIF'),
        (' CELLS >8300,>8371', 'directive:CELLS number:>8300 number:>8371'),
        ('BOARD  CELL 16', 'label:BOARD directive:CELL number:16'),
        ('.again BR .again', 'label:.again operation:BR label:.again'),
        ('\\L  BR A', 'label:\\L operation:BR name:A'),
        (' \\OP \\LEN(A_B),@\\A', 'macro:\\OP parameter:\\LEN(A_B) prefix:@ parameter:\\A'),
        (" ST @LONGNAME,'A", "operation:ST prefix:@ bad:LONGNAME bad:'A"),
        (' ST @A, 5', 'operation:ST prefix:@ name:A comment:5'),
        (' DATA A_B', 'directive:DATA name:A bad:_ name:B'),
    ],
    'ti99asm': [
        ('LOOP   A    *R1+,@TABLE(R12)  next',
         'label:LOOP operation:A prefix:* register:R1 operator:+ prefix:@ name:TABLE register:R12 comment:next'),
        (' RT  back', 'operation:RT comment:back'),
        ('E  EVEN 1', 'label:E directive:EVEN comment:1'),
        (' COPY "A-1.SRC"  a file', 'directive:COPY text:"A-1.SRC" comment:a file'),
        (" copy 'A.SRC'", "directive:copy text:'A.SRC'"),
        (" BYTE 1,-1,>7F,'A'", "directive:BYTE number:1 operator:- number:1 number:>7F text:'A'"),
        (' LI R1,"A"', 'operation:LI register:R1 bad:" name:A bad:"'),
        (' LI R16,R1A', 'operation:LI name:R16 name:R1A'),
        (' DST @A,5', 'bad:DST prefix:@ name:A number:5'),
    ],
}
SCOPES = {'comment': 'comment', 'entity.name.function.macro': 'macro', 'entity': 'label',
          'variable.parameter': 'parameter', 'keyword.mnemonic': 'operation', 'keyword.control': 'directive',
          'keyword.operator.prefix': 'prefix', 'keyword.operator.arithmetic': 'operator', 'constant.numeric': 'number',
          'constant.language': 'here', 'variable.language': 'register', 'variable.other': 'name', 'string': 'text',
          'invalid': 'bad'}
GROUPS = {'Comment': 'comment', 'Remark': 'comment', 'Label': 'label', 'Operation': 'operation', 'Bare': 'operation',
          'Directive': 'directive', 'BareDirective': 'directive', 'FileDirective': 'directive', 'Prefix': 'prefix',
          'Operator': 'operator', 'Number': 'number', 'Here': 'here', 'Register': 'register', 'Name': 'name',
          'Text': 'text', 'File': 'text', 'BadLabel': 'bad', 'BadOperation': 'bad', 'LongName': 'bad',
          'BadSign': 'bad', 'OpenText': 'bad', 'Macro': 'macro', 'MacroUse': 'macro', 'MacroLine': 'directive',
          'Parameters': 'parameter', 'Parameter': 'parameter', 'Local': 'label'}


def parts(line, kinds):
    """The parts of a line that have one kind, of the kinds of its characters."""
    found = []
    for kind, columns in itertools.groupby(range(len(line)), lambda column: kinds[column]):
        columns = list(columns)
        text = line[columns[0]:columns[-1] + 1].strip()
        if kind and text:
            found.append(f'{kind}:{text}')
    return ' '.join(found)


class Grammar:
    """A TextMate grammar whose rules have `match`, `name`, `captures` and `include` alone."""

    def __init__(self, language):
        self.document = json.loads(read_text(VSCODE / f'syntaxes/{language}.tmLanguage.json'))

    def rules(self, listed):
        for rule in listed:
            if 'include' in rule:
                yield from self.rules(self.document['repository'][rule['include'][1:]]['patterns'])
            else:
                yield rule

    def parts(self, line):
        scopes = [''] * len(line)
        self.scan(self.document['patterns'], line, 0, len(line), scopes)
        return parts(line, [next((SCOPES[it] for it in SCOPES if scope.startswith(it)), '') for scope in scopes])

    def scan(self, listed, line, start, end, scopes):
        while start < end:
            found = [(match.start(), order, match, rule) for order, rule in enumerate(self.rules(listed))
                     if (match := re.compile(rule['match']).search(line, start, end))]
            if not found:
                return
            _, _, match, rule = min(found, key=lambda it: it[:2])
            self.mark(rule, match, 0, line, scopes)
            for number, captured in rule.get('captures', {}).items():
                self.mark(captured, match, int(number), line, scopes)
            start = max(match.end(), start + 1)

    def mark(self, rule, match, number, line, scopes):
        start, end = match.span(number)
        if 'name' in rule and start >= 0:
            scopes[start:end] = [rule['name']] * (end - start)
        if 'patterns' in rule and start >= 0:
            self.scan(rule['patterns'], line, start, end, scopes)


def unknown(command, word):
    """Whether the program knows no operation of this name."""
    return program().run(command, given=f' {word}\n'.encode()).fault == 'line 1: unknown operation'


class Names(unittest.TestCase):
    def test_each_name_is_an_operation_of_the_program(self):
        for command, listed in LANGUAGES.values():
            for word in itertools.chain(*listed):
                self.assertFalse(unknown(command, word), word)

    def test_the_program_knows_no_other_word_of_the_documents(self):
        texts = ''.join(read_text(TOP / f'docs/{page}.md') for page in ('ASSEMBLER', 'GPL', 'GPL_STEP', 'MACHINE'))
        words = set(re.findall(r'\b[A-Z]{1,6}\b', texts))
        words |= {word for _, listed in LANGUAGES.values() for word in itertools.chain(*listed)}
        words |= {'D' + word for word in words}
        for command, listed in LANGUAGES.values():
            for word in words - set(itertools.chain(*listed)):
                self.assertTrue(unknown(command, word), word)

    def test_after_a_bare_name_the_rest_of_a_line_is_a_comment(self):
        for command, listed in LANGUAGES.values():
            for word in listed.bare_operations + listed.bare_directives:
                self.assertEqual(program().run(command, given=f" {word} it's\n".encode()).status, 0, word)
            for word in listed.operations + listed.directives + listed.file_directives:
                self.assertEqual(program().run(command, given=f" {word} it's\n".encode()).status, 1, word)


    def test_the_forms_that_are_expanded_are_named_too(self):
        found = names.with_forms(names.gpl())
        self.assertEqual(set(itertools.chain(*found)) - set(itertools.chain(*names.gpl())), FORMS)
        self.assertEqual((found.file_directives, found.bare_directives), (['BIN', 'COPY'], ['ELSE', 'ENDIF', 'ENDM']))


class Files(Calling):
    def test_they_are_what_is_written(self):
        ended = self.call('editors', '--check')
        self.assertEqual((ended.returncode, ended.stdout, ended.stderr), (0, b'', b''))

    def test_a_wrong_word_is_named(self):
        ended = self.call('editors', '--nosuch')
        self.assertEqual(ended.returncode, 2)
        self.assertIn(b'--nosuch', ended.stderr)

    def test_the_extension_names_its_files(self):
        package = json.loads(read_text(VSCODE / 'package.json'))['contributes']
        for language in package['languages']:
            json.loads(read_text(VSCODE / language['configuration']))
        for listed in package['grammars']:
            grammar = Grammar(listed['language']).document
            self.assertEqual((VSCODE / listed['path']).name, f'{listed["language"]}.tmLanguage.json')
            self.assertEqual(grammar['scopeName'], listed['scopeName'])

    def test_the_grammars_find_the_parts_of_lines(self):
        for language, lines in LINES.items():
            grammar = Grammar(language)
            for line, wanted in lines:
                self.assertEqual(grammar.parts(line), wanted)

    def test_the_problem_matcher_reads_what_assemble_writes(self):
        matcher = json.loads(read_text(VSCODE / 'package.json'))['contributes']['problemMatchers'][0]['pattern']
        self.file('sub/a b.gpl', b' RTN\nA:1: x\n')
        lines = self.call('assemble', 'sub/a b.gpl').stderr.decode().splitlines()
        found = [re.match(matcher['regexp'], line) for line in lines]
        places = [tuple(it[matcher[key]] for key in ('file', 'line', 'severity', 'message')) if it else None
                  for it in found]
        self.assertEqual(places, [('sub/a b.gpl', '2', None, 'bad label'), None])


def has_vim():
    if not shutil.which('vim'):
        return False
    version = subprocess.run(['vim', '--version'], capture_output=True).stdout
    return all(it in version for it in (b'+syntax', b'+eval', b'+quickfix'))


@unittest.skipUnless(has_vim(), 'no Vim with +syntax, +eval and +quickfix')
class Vim(Calling):
    def setUp(self):
        super().setUp()
        packages = self.folder / 'home/.vim/pack/ti/start'
        packages.mkdir(parents=True)
        (packages / 'ti_bench').symlink_to(TOP / 'editors/vim')
        self.file('vimrc', b"set nocompatible\nlet g:ti99asm_endings = ['asm', 'src']\nfiletype plugin on\nsyntax on\n")

    def vim(self, script):
        """The lines that a script for Vim puts into `out`."""
        self.file('script.vim', ('let out = []\n' + script + "\ncall writefile(out, 'out')\nqall!\n").encode())
        environment = {**os.environ, 'HOME': str(self.folder / 'home'), 'LC_ALL': 'C'}
        subprocess.run(['vim', '-N', '-u', 'vimrc', '-i', 'NONE', '-n', '-es', '-S', 'script.vim'], cwd=self.folder,
                       env=environment, capture_output=True, timeout=60, check=True)
        return read_text(self.folder / 'out').splitlines()

    def test_syntax_groups(self):
        for (language, lines), ending in zip(LINES.items(), ('gpl', 'a99')):
            self.file(f'a.{ending}', ''.join(f'{line}\n' for line, _ in lines).encode())
            found = self.vim(f"edit a.{ending}\nfor line in range(1, line('$'))\n"
                             "call add(out, join(map(range(1, col([line, '$']) - 1), "
                             "{_, column -> synIDattr(synID(g:line, column, 1), 'name')}), ' '))\nendfor")
            for (line, wanted), groups in zip(lines, found):
                kinds = [GROUPS.get(group[len(language):], '') for group in groups.split(' ')] if line else []
                self.assertEqual(parts(line, kinds), wanted)

    def test_the_compiler_fills_the_quickfix_list(self):
        self.file('sub/a b.gpl', b' RTN\nLABEL: RTN\n')
        self.file('sub/B.SRC', b' RT\n FOO\n')
        self.file('sub/c.asm', b' COPY "B.SRC"\n')
        listed = ("for it in getqflist()\n"
                  "call add(out, join([bufname(it.bufnr), it.lnum, it.type, it.text], '|'))\nendfor")
        found = self.vim(f'edit sub/a\\ b.gpl\nsilent make!\n{listed}\nedit sub/c.asm\nsilent make!\n{listed}')
        self.assertEqual(found, ['sub/a b.gpl|2|E|bad label', 'sub/a b.gpl|2|I|a label has no colon',
                                 'sub/B.SRC|2|E|unknown operation'])

    def test_an_output_is_named_to_make(self):
        self.file('a.gpl', b' EXIT\n')
        self.vim('edit a.gpl\nsilent make!')
        self.assertEqual(sorted(it.name for it in self.folder.glob('a.*')), ['a.gpl'])
        self.vim('edit a.gpl\nsilent make! -o %:r.bin')
        self.assertEqual((self.folder / 'a.bin').read_bytes(), b'\x0b')

    def test_endings_may_be_in_capital_letters(self):
        names = ['a.gpl', 'B.GPL', 'c.Gpl', 'd.a99', 'E.A99', 'f.asm', 'LOOP.SRC', 'g.Asm', 'h.gplx', 'JASM']
        script = ''.join(f"edit {name}\ncall add(out, &filetype)\n" for name in names)
        self.assertEqual(self.vim(script), ['ti99gpl'] * 3 + ['ti99asm'] * 5 + [''] * 2)

    def test_tabs_and_comments(self):
        self.file('a.asm', b'')
        found = self.vim('edit a.asm\nexecute "normal iLOOP\\<Tab>MOV\\<Tab>R1,R2"\n'
                         'let out = [&filetype, &commentstring, getline(1)]')
        self.assertEqual(found, ['ti99asm', '* %s', 'LOOP   MOV  R1,R2'])


if __name__ == '__main__':
    unittest.main()
