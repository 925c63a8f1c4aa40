"""Tests of the table of operations: it has the names, codes and operands of the definitions and of the documents."""
import re
import unittest
from unittest import mock

from calling import TOP
from editing import tables
from expanding.names import BARE_FORMS, FILE_FORMS, FORMS, WORDS
from lib.command import Stopped
from lib.operations import ASSEMBLER, GPL, TABLE, sentences
from lib.repository import read_text


def with_row(language, name, **more):
    """The table with another row."""
    return {**TABLE, language: {**TABLE[language], name: TABLE[language][name]._replace(**more)}}


def rows(page, heading):
    """The rows of a table of a document, by the names in code in their first cells; `and with D` means both."""
    text = read_text(TOP / f'docs/{page}.md')
    for line in text[text.index(heading):].split('\n')[2:]:
        if not line.startswith('|'):
            return
        first, *others = (cell.strip() for cell in re.split(r'(?<!\\)\|', line)[1:-1])
        yield first, others


class Operations(unittest.TestCase):
    def test_it_is_as_the_definitions_are(self):
        self.assertEqual(list(tables.faults()), [])

    def test_what_differs_is_found(self):
        less = {**TABLE, GPL: {name: it for name, it in TABLE[GPL].items() if name != 'FETCH'}}
        for table, said in (
                (with_row(GPL, 'DIV', code='>AD >AE'), ['gpl: DIV has the code >AD >AE in place of >AC >AE']),
                (with_row(ASSEMBLER, 'TB', code='>1F01'), ['asm: TB has the code >1F01 in place of >1F00']),
                (with_row(GPL, 'MOVE', code='>30'), ['gpl: MOVE has the code >30 in place of >30 to >35, >38, >39']),
                (with_row(ASSEMBLER, 'NOP', operands='register'), ['asm: NOP takes operands in one alone']),
                (less, ['gpl: FETCH is an operation of one alone'])):
            with mock.patch.object(tables, 'TABLE', table):
                self.assertEqual(list(tables.faults()), said)
                self.assertRaises(Stopped, tables.documents)

    def test_each_has_a_sentence_of_its_own(self):
        for language, found in TABLE.items():
            for name, it in found.items():
                self.assertTrue(it.does and it.operands and it.name == name, name)
                self.assertNotRegex(it.does, r'[.|\n]$|\s\s', name)
            said = [it.does for it in found.values() if it.code]
            self.assertEqual(len(said), len(set(said)), language)

    def test_the_documents_have_the_rows(self):
        for language, name in tables.DOCUMENTS.items():
            text = read_text(TOP / name)
            for row in sentences(language):
                self.assertIn(f'\n{row}\n', text)

    def test_operands_are_those_of_the_documents(self):
        for first, (operands, *_) in rows('ASSEMBLER', '| Instructions | Operands |'):
            for name in re.findall(r'\b[A-Z]{1,4}\b(?![^(]*\))', first):
                own = TABLE[ASSEMBLER][name].operands
                self.assertIn(own.split()[0].strip(','), operands, name)
        for first, (operands, *_) in rows('GPL', '| Operations | Operands |'):
            for name in re.findall(r'`([A-Z]+)`', first):
                own = TABLE[GPL][name].operands
                self.assertIn(own.replace('destination', 'the destination').replace(' source', ' then the source', 1)
                              if own.startswith('destination') else own.split(',')[0], operands)

    def test_status_bits_of_the_processor_are_those_of_the_document(self):
        seen = set()
        for first, (_, status) in rows('MACHINE', '| Instructions | What they do | Status bits |'):
            for name in re.findall(r'\b[A-Z]{1,4}\b', first):
                own = TABLE[ASSEMBLER][name].status.replace(', OP', '')
                bits = {'XOP': 'X', 'LIMI': 'the interrupt mask'}.get(name, status.partition(';')[0])
                bits += ', OV' if name == 'SLA' else ''
                self.assertEqual(own or 'none', bits, name)
                seen.add(name)
        self.assertLess(40, len(seen))

    def test_the_words_of_other_tools_are_those_of_the_table(self):
        self.assertEqual({name for name, it in TABLE[GPL].items() if it.is_form}, FORMS)
        self.assertEqual({name for name in FORMS if TABLE[GPL][name].operands == '"NAME"'}, FILE_FORMS)
        self.assertEqual({name for name in FORMS if TABLE[GPL][name].is_bare}, BARE_FORMS)
        self.assertEqual({name for name, it in TABLE[GPL].items() if it.is_bare and it.code}, WORDS[GPL].bare)
        own = {name for name, it in TABLE[ASSEMBLER].items() if it.is_bare and not it.is_form}
        self.assertEqual(own | {'DEF', 'REF'}, WORDS[ASSEMBLER].bare)


if __name__ == '__main__':
    unittest.main()
