"""Tests that documents, manual pages and other scripts state the limits of the programs as their constants have them."""
import re
import unittest

from calling import TOP
from lib.repository import read_text

# each limit by its file and its constant, the phrase that states it, and the files that do
LIMITS = [
    ('shelf_defs/src/limits.rt', 'LARGEST_INPUT', r'{} bytes',
     ['docs/OBJECT.md', 'docs/REPORTS.md', 'docs/SECURITY.md', 'man/ti_bench.1', 'tests/hostile']),
    ('report_defs/src/limits.rt', 'MOST_INSTRUCTIONS', r'{}', ['README.md', 'docs/REPORTS.md', 'docs/SECURITY.md',
                                                               'man/ti_bench.1', 'man/ti_debug.1', 'tools/launcher']),
    ('report_defs/src/limits.rt', 'MOST_STEPS', r'{}', ['README.md', 'docs/CLAIMS.md', 'docs/PROOF.md', 'docs/REPORTS.md',
                                                        'docs/SECURITY.md', 'docs/USE.md', 'man/ti_bench.1',
                                                        'tools/launcher']),
    ('gpl_counts/src/limits.rt', 'MOST_SHOWN_STEPS', r'{}', ['README.md', 'docs/CLAIMS.md', 'docs/REPORTS.md',
                                                             'docs/USE.md', 'man/ti_debug.1', 'tools/launcher']),
    ('report_defs/src/limits.rt', 'MOST_BLOCKS', r'1 to {}', ['README.md', 'docs/REPORTS.md', 'man/ti_bench.1']),
    ('bench_shelf/src/copied_lines.rt', 'MOST_BYTES', r'{}', ['docs/ASSEMBLER.md', 'docs/CLAIMS.md', 'docs/REPORTS.md',
                                                             'docs/SECURITY.md', 'man/ti_bench.1',
                                                             'man/ti_bench-expand.1', 'tools/lib/refusals.py']),
    ('bench_shelf/src/copied_lines.rt', 'MOST_COPIES', r'{}', ['docs/ASSEMBLER.md', 'docs/SECURITY.md', 'man/ti_bench.1']),
    ('bench_shelf/src/file_name.rt', 'LONGEST_FILE_NAME', r'1 to {} (letters|characters)',
     ['README.md', 'docs/SECURITY.md', 'man/ti_bench.1']),
]


def constant(path, name):
    """The number of a constant of a crate."""
    found = re.search(rf'const {name}: \w+ = ([0-9_]+);', read_text(TOP / 'crates' / path))
    return int(found[1].replace('_', ''))


class Limits(unittest.TestCase):
    def test_each_limit_is_stated_as_its_constant_has_it(self):
        for path, name, phrase, files in LIMITS:
            stated = re.compile(rf'(?<![0-9,]){phrase.format(f"{constant(path, name):,}")}(?![0-9])')
            for file in files:
                with self.subTest(limit=name, file=file):
                    self.assertRegex(' '.join(read_text(TOP / file).split()), stated)


if __name__ == '__main__':
    unittest.main()
