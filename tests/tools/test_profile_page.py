"""The page of the profile names the modules of definitions that have its marks."""
import collections
import re
import unittest

from lib.repository import TOP, read_text

MARKED = re.compile(r'^Marked in (.*?)\.$', re.M | re.S)
MODULES = re.compile(r'`(\w+)`:\s+([^;`]+)')
MODULE = re.compile(r'([\w/]+)\s+(\d+)')


def marks():
    """How many lines with the mark each module of definitions has."""
    found = collections.Counter()
    for path in (TOP / 'crates').glob('*/specs/**/*.antt'):
        crate, _, *module = path.relative_to(TOP / 'crates').with_suffix('').parts
        count = sum('Profile:' in line for line in read_text(path).splitlines())
        if count:
            found[f'{crate}/{"/".join(module)}'] = count
    return found


def said(page):
    """The same as a page says it, and the sections that say nothing."""
    found, silent = collections.Counter(), []
    for section in re.split(r'^## ', page, flags=re.M)[1:]:
        line = MARKED.search(section)
        if line is None:
            silent.append(section.splitlines()[0])
            continue
        for crate, modules in MODULES.findall(line[1]):
            for module, count in MODULE.findall(modules):
                found[f'{crate}/{module}'] += int(count)
    return found, silent


class ProfilePage(unittest.TestCase):

    def test_each_mark_is_named_and_no_other(self):
        self.assertEqual(said(read_text(TOP / 'docs/PROFILE.md')), (marks(), []))

    def test_a_section_without_its_line_and_a_count_are_noticed(self):
        page = ('# Page\n\n## One\n\nText.\n\nMarked in `some_defs`: Part 2, Inner/Other 3; `others`: Step\n1.\n\n'
                '## Two\n\nText.\n')
        self.assertEqual(said(page), ({'some_defs/Part': 2, 'some_defs/Inner/Other': 3, 'others/Step': 1}, ['Two']))


if __name__ == '__main__':
    unittest.main()
