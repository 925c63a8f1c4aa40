"""Tests that the documents name the fault texts of the definitions, and no others."""
import re
import unittest

from calling import TOP
from lib.repository import read_text

SPECS = TOP / 'crates/report_defs/specs'
FILES = ['FaultLine', 'FileLines', 'SourceFaults', 'ObjectFaults']
# parts of lines that are no causes, and what no fault line says, since that ends with status 5
OTHERS = {'line', ':', '', 'out of memory', 'computed', 'usage'}


def texts():
    """The texts of the causes in the definitions, up to what follows them."""
    found = set()
    for name in FILES:
        for text in re.findall(r'codes "([^"]*)"', read_text(SPECS / f'{name}.antt')):
            found.add(re.split(r'[:>]', text.replace('\\n', ''))[0].strip(' ,'))
    return found - OTHERS


def table(path, heading):
    """The fault lines of a table: what is in backquotes in its first column, without places and names."""
    rows = read_text(path).partition(heading)[2].partition('\n\n')[0].split('\n')
    for row in rows:
        for shown in re.findall('`([^`]*)`', row.split(' | ')[0]):
            yield re.sub(r'^line L: ', '', shown).partition(' >')[0].removesuffix(' NAME')


class Faults(unittest.TestCase):
    def test_reports_names_each_fault_text_and_no_other(self):
        self.assertEqual(set(table(TOP / 'docs/REPORTS.md', '| Line | When |')), texts())

    def test_the_manual_page_names_each_fault_text(self):
        page = re.sub(r'\\f.|\.[A-Z]+ |["\\]', '', read_text(TOP / 'man/ti_bench.1'))
        self.assertEqual([text for text in sorted(texts()) if text not in page], [])

    def test_the_programs_usage_lines_are_shown(self):
        for path in 'crates/workbench/src/usage.rt', 'crates/debug_commands/src/words.rt':
            usage = re.search(r'b"(usage: [^"\\]*)', read_text(TOP / path))[1]
            self.assertIn(f'    {usage}\n', read_text(TOP / 'docs/REPORTS.md'))


if __name__ == '__main__':
    unittest.main()
