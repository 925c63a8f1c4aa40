"""What tools/reading_list counts as a citation, and what it refuses."""
import subprocess
import unittest

from lib.repository import TOP
from reading.free import free

TOOL = TOP / 'tools/reading_list'


def names(text):
    return set(free(text))


class Citations(unittest.TestCase):

    def test_fields_of_a_record_are_its_own(self):
        self.assertEqual(names('pub record Program : Type 0 where\n  pub image : Image\n  pub names : Names\n'
                               '  pub entry : entry_of image\n') & {'image', 'Image', 'names', 'Names', 'entry_of'},
                         {'Image', 'Names', 'entry_of'})

    def test_a_type_before_a_field_of_its_name_is_cited(self):
        self.assertIn('run', names('pub record Ends (limit : ℕ) : Type 0 where\n  pub run : run limit ≡ 0\n'))

    def test_arguments_of_a_clause_are_its_own(self):
        self.assertEqual(names('abbrev pub entry_by : Option ℕ → Outcome\nentry_by entry (Some found) = later entry found\n')
                         - {'abbrev', 'pub'}, {'entry_by', 'Option', 'Outcome', 'Some', 'later'})

    def test_a_name_is_cited_before_it_is_bound(self):
        for text in ('f text = value text >>= λ value. Ok value', 'f line = let names = names line in known names',
                     'f at = do\n  step ← step at\n  after step', 'f x = (map (λ step. one step) x) ++ step x'):
            with self.subTest(text):
                self.assertEqual(len(names(text) & {'value', 'names', 'step'}), 1)

    def test_a_name_is_not_cited_after_it_is_bound(self):
        for text in ('f text = read text >>= λ value. Ok value', 'f line = let names = known line in all names',
                     'f at = do\n  step ← next at\n  after step', 'f x = map (λ step. one step) x'):
            with self.subTest(text):
                self.assertEqual(names(text) & {'value', 'names', 'step'}, set())

    def test_parts_and_fields_that_are_made_are_no_citations(self):
        self.assertEqual(names('f x = record { at = x.place; names = names x }') - {'f', 'record'}, {'names'})


class Roots(unittest.TestCase):

    def test_a_root_that_no_file_defines_is_refused(self):
        text = TOOL.read_text(encoding='utf-8').replace("['EndsBy']", "['EndsByNothing']")
        self.assertNotEqual(text, TOOL.read_text(encoding='utf-8'))
        # the script is read from standard input, so its folder is named
        found = subprocess.run(['python3', '-E', '-c', f'import sys; sys.path.insert(0, {str(TOP / "tools")!r})\n'
                                f'sys.argv = ["reading_list"]\n{text}'], capture_output=True, text=True, check=False)
        self.assertEqual((found.returncode != 0, found.stdout), (True, ''))
        self.assertIn('EndsByNothing', found.stderr)


if __name__ == '__main__':
    unittest.main()
