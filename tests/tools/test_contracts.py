"""Tests of tools/contracts: each public call with its contract, and each definition that it cites at its place."""
import re
import subprocess
import unittest

from calling import TOOLS, TOP
from lib.repository import crates, read_text
from reading import contracts


def printed(*names):
    """How the script ends: status, output and fault line."""
    ended = subprocess.run([TOOLS / 'contracts', *names], capture_output=True, text=True)
    return ended.returncode, ended.stdout, ended.stderr


class Contracts(unittest.TestCase):
    @classmethod
    def setUpClass(cls):
        cls.calls = [call for crate in crates() for call in contracts.calls(crate)]

    def test_each_public_function_is_found_at_its_line(self):
        found = {call.place for call in self.calls}
        for path in sorted((TOP / 'crates').glob('*/src/**/*.rt')):
            for number, line in enumerate(read_text(path).split('\n'), 1):
                if re.match(r' *pub (const )?fn ', line):
                    self.assertIn(f'{path.relative_to(TOP)}:{number}', found)

    def test_each_has_its_signature_and_no_body(self):
        for call in self.calls:
            name = call.name.split('::')[-1]
            self.assertIn(f'fn {name}', call.text[0], call.place)
            self.assertFalse(any(re.match(r' *(let|match|if|while|for) ', line) for line in call.text), call.place)

    def test_each_cited_definition_is_in_the_file_that_is_named(self):
        cited = {(name, place) for call in self.calls for name, place in call.cited}
        self.assertGreater(len(cited), 500)
        for name, place in cited:
            path, _, number = place.partition(':')
            lines = read_text(TOP / path).split('\n')
            shown = lines[int(number) - 1] if number else '\n'.join(lines)
            self.assertIn(re.findall(r'\w+', name)[-1], re.findall(r'\w+', shown), place)

    def test_a_call_is_printed_with_its_contract(self):
        status, text, _ = printed('gpl_turn', 'Session::run')
        self.assertEqual((status, re.findall(r'^crates/.*: (.*)$', text, re.M)), (0, ['gpl_turn', 'Session::run']))
        self.assertIn('\n        requires { IsMatching machine.old }\n', text)
        self.assertRegex(text, r'\n  Turned: crates/interp_defs/specs/Turned\.antt:\d+\n')

    def test_a_crate_and_all_crates_are_listed(self):
        self.assertRegex(printed('lane_scan')[1], r'(?s)first_difference.*sum_bytes')
        listed = printed()[1]
        self.assertRegex(listed, r'(?m)^sim_steps: .*gpl_turn')
        self.assertRegex(listed, r'(?m)^workbench: .*bench_with')

    def test_what_is_no_call_is_named(self):
        status, text, fault = printed('no_such_call')
        self.assertEqual((status, text), (1, ''))
        self.assertIn('no crate and no public call no_such_call', fault)


if __name__ == '__main__':
    unittest.main()
