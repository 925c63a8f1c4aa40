"""The files of an editor, made of a template and the names of a language."""
import json
import re
import textwrap

from lib.repository import TOP, read_text

TEMPLATES = TOP / 'tools/editing'
MARK = re.compile(r'\{\{(\w+)\}\}')
# The fields of a line in a grammar: a good or a bad label, one of the names or a bad operation, and operands.
FIELDS = {'label': r'(?:([A-Z][0-9A-Z]{0,5}{{more_labels}})(?![^ \t])|([^ \t*][^ \t]*))?',
          'word': r'(?:({{operations}})(?![^ \t])|({{directives}})(?![^ \t])|({{macro_word}})(?![^ \t])|([^ \t]+))',
          'operands': r"(?:[^ \t']|'[^']*(?:'|$))+"}
# The settings that differ by language, beside its names; the prefixes belong to operands. In a GPL source a local label
# or the parameter of a macro may be a label, and an operation that is none may be a macro.
LANGUAGES = {
    'ti99gpl': {'title': 'GPL of the TI-99/4A', 'ending': 'gpl', 'prefix': r'(?:[VGR]?@|V?\*)',
                'vim_prefix': r'\%([VGR]\=@\|V\=\*\)',
                'more_labels': r'|\.[0-9A-Z_]{1,31}|\\[A-Z][0-9A-Z_]*', 'macro': r'[A-Z][0-9A-Z_]{0,30}',
                'macro_word': r'[A-Z][0-9A-Z_]{0,30}|\\[A-Z][0-9A-Z_]*', 'local': r'\.[0-9A-Z_]{1,31}',
                'parameter': r'\\(?:LEN\([0-9A-Z_]+\)|[A-Z][0-9A-Z_]*)',
                'vim_label': r'\%(\.[0-9A-Za-z_]\{1,31}\|\\\a[0-9A-Za-z_]*\)', 'vim_macro': r'\a[0-9A-Za-z_]\{,30}',
                'vim_macro_word': r'\%(\a[0-9A-Za-z_]\{,30}\|\\\a[0-9A-Za-z_]*\)',
                'vim_local': r'\.[0-9A-Za-z_]\{1,31}',
                'vim_parameter': r'\\\%(LEN([0-9A-Za-z_]\+)\|\a[0-9A-Za-z_]*\)'},
    'ti99asm': {'title': 'TMS9900 assembler of the TI-99/4A', 'ending': 'a99', 'prefix': '[@*]',
                'vim_prefix': '[@*]', 'more_labels': '', 'macro': '', 'macro_word': '(?!)', 'local': '',
                'parameter': '', 'vim_label': '', 'vim_macro': '', 'vim_macro_word': '', 'vim_local': '',
                'vim_parameter': ''},
}


def vim(language, names):
    """A syntax file for Vim; a line of the template that would list no name is left out."""
    lists = {field: ''.join(f'\n      \\ {line}' for line in textwrap.wrap(' '.join(found), 110))
             for field, found in names._asdict().items()}
    values = {**LANGUAGES[language], **lists, 'language': language}
    lines = read_text(TEMPLATES / 'syntax.vim').splitlines(keepends=True)
    return ''.join(MARK.sub(lambda mark: values[mark[1]], line) for line in lines
                   if all(values[mark] for mark in MARK.findall(line)))


def grammar(language, names):
    """A TextMate grammar; a rule of the template that would list no name is left out."""
    lists = {field: '|'.join(found) for field, found in names._asdict().items()}
    values = {**LANGUAGES[language], **lists, 'language': language}
    values.update((field, MARK.sub(lambda mark: values[mark[1]], pattern)) for field, pattern in FIELDS.items())

    def filled(it):
        if isinstance(it, dict):
            return {key: filled(value) for key, value in it.items()}
        if isinstance(it, list):
            return [filled(value) for value in it if wanted(value)]
        return MARK.sub(lambda mark: values[mark[1]], it)

    def wanted(it):
        return not isinstance(it, dict) or all(values[mark] for mark in MARK.findall(it.get('match', '')))

    return json.dumps(filled(json.loads(read_text(TEMPLATES / 'grammar.json'))), indent=2) + '\n'
