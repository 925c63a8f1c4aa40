"""Tests that the documents name what the tree has: code by its names, and claims by their definitions and fields."""
import functools
import re
import subprocess
import unittest

from calling import TOP
from lib.repository import read_text

# a library of others, and the end of a name
OTHERS = {'memchr', '_tests'}


@functools.cache
def words_in(path):
    """The words of a file."""
    return frozenset(re.findall(r'\w+', read_text(TOP / path)))


def words_of(paths):
    """The words of files."""
    return set().union(*map(words_in, paths))


def is_of_code(name):
    """Whether a word in backquotes is a name of code: of several words, or of parts that `::` joins."""
    return re.fullmatch(r'[A-Za-z_]\w*(::\w+)*', name) and re.search(r'_|::|[a-z][A-Z]', name)


class Names(unittest.TestCase):
    @classmethod
    def setUpClass(cls):
        listed = subprocess.run(['git', 'ls-files'], cwd=TOP, capture_output=True, text=True, check=True).stdout
        cls.files = [path for path in listed.split('\n') if (TOP / path).is_file()]

    def test_names_of_code_in_the_documents_are_in_the_tree(self):
        folders = ('crates', 'tools', 'tests', 'bench', 'more-edits', 'editors')
        code = [path for path in self.files if path.startswith(folders) and not path.endswith('.md')]
        have = words_of(code).union(OTHERS, *(re.findall(r'\w+', path) for path in self.files))
        for path in filter(lambda path: path.endswith('.md'), self.files):
            text = re.sub(r'^    .*$', '', read_text(TOP / path), flags=re.M)
            shown = [name for name in re.findall('`([^`\n]+)`', text) if is_of_code(name)]
            lost = [name for name in shown if not set(re.findall(r'\w+', name)) <= have]
            self.assertEqual(lost, [], path)

    def test_each_definition_of_the_claims_is_where_they_say(self):
        named = re.findall(r'`(\w+)` of `(\w+)` \(`(\w+)`\)', re.sub(r'\s+', ' ', read_text(TOP / 'docs/CLAIMS.md')))
        self.assertGreater(len(named), 8)
        for name, module, crate in named[1:]:
            with self.subTest(name):
                self.assertIn(name, words_in(f'crates/{crate}/specs/{module}.antt'))

    def test_the_claims_have_each_field_of_the_laws_of_a_run(self):
        text = read_text(TOP / 'docs/CLAIMS.md')
        tables = re.findall(r'^`(\w+)` of `(\w+)` \(`(\w+)`\).*:\n\n((?:\|.*\n)+)', text, re.M)
        self.assertEqual(len(tables), 4)
        for record, module, crate, rows in tables:
            defined = read_text(TOP / f'crates/{crate}/specs/{module}.antt').partition(f'pub record {record} ')[2]
            fields = re.findall(r'^  pub (\w+) :', defined.partition('\n\n')[0], re.M)
            shown = [name for row in rows.splitlines()[2:] for name in re.findall(r'`(\w+)`', row.split('|')[1])]
            self.assertEqual(sorted(shown), sorted(fields), record)


if __name__ == '__main__':
    unittest.main()
