"""Tests that tables of commands and statuses in the documents are the program's, and that each option which a document
names is in the help of its tool."""
import re
import unittest

from calling import TOOLS, TOP, Calling
from lib.repository import read_text

DOCUMENTS = [TOP / 'README.md', TOP / 'CONTRIBUTING.md', *sorted((TOP / 'docs').glob('*.md'))]


def commands(crate):
    """The words of each command, as its usage line has them; names of files in brackets are two commands."""
    rows = re.findall(r'\(b"(\w+)", b"([^"]*)", \w+::', read_text(TOP / f'crates/{crate}/src/command.rt'))
    for name, more in rows:
        yield from [name, name + more.strip('[] ').join((' ', ''))] if more.startswith(' [') else [name + more]


def first_cells(path, heading):
    """What is in backquotes at the beginning of each row of a table."""
    table = read_text(TOP / path).partition(heading)[2].partition('\n\n')[0]
    return re.findall(r'^\| `?([^`|]*?)`? \|', table, re.M)


def page(name, section):
    """The heads of the paragraphs of a section of a manual page."""
    text = read_text(TOP / f'man/{name}.1').partition(f'.SH {section}\n')[2].partition('\n.SH')[0]
    for head in re.findall(r'^\.TP\n\.BI? (.*)$', text, re.M):
        yield ' '.join(head.replace('\\~', ' ').split())


class Tables(Calling):
    def test_the_commands_are_those_of_the_program(self):
        known = set(commands('report_defs'))
        self.assertEqual(len(known), 12)
        self.assertEqual(set(first_cells('docs/REPORTS.md', '| Words | Standard input | Standard output |\n')), known)
        self.assertEqual(set(first_cells('README.md', '| Words | Input | Report |\n')), known)
        self.assertLessEqual(known, set(page('ti_bench', 'COMMANDS')))

    def test_the_commands_of_ti_debug_have_a_report_and_a_paragraph(self):
        reports, readme = read_text(TOP / 'docs/REPORTS.md'), read_text(TOP / 'README.md')
        for command in commands('debug_report_defs'):
            self.assertIn(f'\n## The report of `{command.split()[0]}`\n', reports)
            self.assertIn(f'`{command}`', readme)
            self.assertIn(command, set(page('ti_debug', 'COMMANDS')))

    def test_the_statuses_are_those_of_the_program(self):
        known = re.findall(r'^    \w+ = (\d),$', read_text(TOP / 'crates/report_defs/src/status.rt'), re.M)
        self.assertEqual(len(known), 7)
        self.assertEqual(first_cells('docs/REPORTS.md', '| Status | When | What was written |\n'), known)
        self.assertEqual(first_cells('README.md', '| Status | When |\n'), known)
        self.assertEqual([head for head in page('ti_bench', 'EXIT STATUS') if head in known], known)

    def test_each_option_of_a_document_is_in_the_help_of_its_tool(self):
        tools = {path.name for path in TOOLS.iterdir() if path.is_file()}
        named = {(tool, option) for path in DOCUMENTS
                 for tool, words in re.findall(r'tools/(\w+)([^`|\n;&]*)', read_text(path)) if tool in tools
                 for option in re.findall(r' (--[a-z-]+)', words)}
        self.assertGreater(len(named), 15)
        for tool in sorted({tool for tool, _ in named}):
            known = set(re.findall(r'--[a-z-]+', self.call(tool, '--help').stdout.decode()))
            self.assertEqual([option for it, option in sorted(named) if it == tool and option not in known], [], tool)


if __name__ == '__main__':
    unittest.main()
