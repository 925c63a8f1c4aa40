"""Tests of the lists of names that tools/interpreter keeps, and of its status."""
import importlib.machinery
import importlib.util
import sys
import unittest
from unittest import mock

from calling import TOP
from lib.repository import read_text
from listing import name_lists
from listing.name_lists import ADDRESSES, ENTRIES, LISTS, entries_of, lists_of, with_name, without_name
from listing.source import Listing

ONE = 'gpl_defs.specs.declared.instruction.OneName.TheVariants'
DECLARED = {ADDRESSES: ['ADDV', 'NOTV', 'FETCH'], ONE: ['INV', 'NOT', 'FETCH']}
COMMON, ROWS, VIEW = LISTS
TEXTS = {
    COMMON: f'-- Names.\npub use Rattle.{ROWS}.{{ADDV, step}}\nunfoldable pub use Rattle.{ROWS}.{{after}}\n',
    ROWS: f'-- Names.\npub use Rattle.{VIEW}.{{ADDV, INV, step}}\nunfoldable pub use Rattle.{VIEW}.{{after}}\n',
    VIEW: f'-- Names.\npub use Rattle.{ONE}.{{INV}}\npub use Rattle.{ADDRESSES}.{{ADDV}}\n',
}


def used(module, names):
    return f'use Rattle.std.specs.Prelude.{{ℕ}}\nghost use Rattle.{module}.{{{names}}};\nNOTV\n'


class NameLists(unittest.TestCase):
    def test_names_that_are_passed_on_change_nothing(self):
        self.assertEqual(lists_of(TEXTS, [used(COMMON, 'ADDV, after'), used(ROWS, 'INV')], DECLARED), TEXTS)

    def test_a_new_label_is_passed_on_from_its_module_up(self):
        found = lists_of(TEXTS, [used(COMMON, 'NOTV')], DECLARED)
        self.assertIn(f'pub use Rattle.{ROWS}.{{ADDV, step, NOTV}}\n', found[COMMON])
        self.assertIn(f'pub use Rattle.{VIEW}.{{ADDV, INV, step, NOTV}}\n', found[ROWS])
        self.assertIn(f'pub use Rattle.{ADDRESSES}.{{ADDV, NOTV}}\n', found[VIEW])

    def test_a_new_operation_is_passed_on_as_far_as_it_is_imported(self):
        found = lists_of(TEXTS, [used(ROWS, 'NOT')], DECLARED)
        self.assertEqual(found[COMMON], TEXTS[COMMON])
        self.assertIn(f'pub use Rattle.{VIEW}.{{ADDV, INV, step, NOT}}\n', found[ROWS])
        self.assertIn(f'pub use Rattle.{ONE}.{{INV, NOT}}\n', found[VIEW])

    def test_a_name_of_both_is_the_label(self):
        self.assertIn(f'{ADDRESSES}.{{ADDV, FETCH}}', lists_of(TEXTS, [used(ROWS, 'FETCH')], DECLARED)[VIEW])

    def test_other_names_are_left_to_the_writer(self):
        self.assertEqual(lists_of(TEXTS, [used(COMMON, 'unknown')], DECLARED), TEXTS)

    def test_what_is_no_label_any_more_is_taken_out_of_each_list(self):
        found = lists_of(TEXTS, [], {**DECLARED, ADDRESSES: ['NOTV']})
        self.assertNotIn('ADDV', ''.join(found.values()))
        self.assertEqual(found[VIEW], f'-- Names.\npub use Rattle.{ONE}.{{INV}}\n')
        self.assertIn(f'pub use Rattle.{ROWS}.{{step}}\n', found[COMMON])

    def test_a_full_line_is_followed_by_another(self):
        start = f'pub use Rattle.{ONE}.{{'
        line = f'{start}{"A" * (114 - len(start))}}}\n'
        self.assertEqual(with_name(line, ONE, 'NOT'), line[:-2] + ', NOT}\n')
        line = f'{start}{"A" * (115 - len(start))}}}\n'
        self.assertEqual(with_name(line, ONE, 'NOT'), f'{line}{start}NOT}}\n')

    def test_the_entries_import_what_they_name(self):
        text = (f'use Rattle.{ONE}.{{\n  INV,\n  OLD,\n}}\nuse Rattle.{ADDRESSES}.{{\n  ADDV,\n}}\n'
                '\n-- FETCH\nof INV = ADDV\n')
        found = entries_of(f'{text}of NOT = NOTV\n', DECLARED)
        self.assertIn('  INV,\n  NOT,\n}', found)
        self.assertIn('  ADDV,\n  NOTV,\n}', found)
        self.assertNotIn('OLD', found)
        self.assertNotIn('  FETCH', found)

    def test_a_name_that_was_added_is_taken_out_again(self):
        for module in [*LISTS, ENTRIES]:
            text = read_text(TOP / name_lists.path_of(module))
            source = name_lists.imports(text)[-1][0] if LISTS.get(module) is None else LISTS[module]
            self.assertEqual(without_name(with_name(text, source, 'NEWNAME'), source, 'NEWNAME'), text)

    def test_the_lists_are_settled(self):
        for path, text in name_lists.files(Listing()).items():
            self.assertEqual(read_text(TOP / path), text, path)


class Status(unittest.TestCase):
    def test_it_is_1_if_any_file_is_not_what_would_be_written(self):
        loader = importlib.machinery.SourceFileLoader('interpreter', str(TOP / 'tools/interpreter'))
        script = importlib.util.module_from_spec(importlib.util.spec_from_loader('interpreter', loader))
        loader.exec_module(script)
        for status in (0, 1):
            with mock.patch.object(sys, 'argv', ['interpreter', '--check']), \
                    mock.patch.object(script.generated, 'settle', return_value=status) as settled:
                self.assertEqual(script.main(), status)
            self.assertEqual([call.args[1] for call in settled.mock_calls], [True])


if __name__ == '__main__':
    unittest.main()
