"""Tests of what tools/gate_costs reads of processes. test_signals has how it ends."""
import importlib.machinery
import importlib.util
import os
import pathlib
import re
import subprocess
import unittest

from calling import TOP

LOADER = importlib.machinery.SourceFileLoader('gate_costs', str(TOP / 'tools/gate_costs'))
gate_costs = importlib.util.module_from_spec(importlib.util.spec_from_loader('gate_costs', LOADER))
LOADER.exec_module(gate_costs)


class Processes(unittest.TestCase):
    def test_the_most_memory_is_in_bytes_and_none_of_a_process_that_has_ended(self):
        said = re.search(r'VmHWM:\s+(\d+) kB', pathlib.Path('/proc/self/status').read_text())
        self.assertEqual(gate_costs.most_held(str(os.getpid())) // 1024 // 1024, int(said[1] if said else 0) // 1024)
        with subprocess.Popen(['true']) as ended:
            os.waitid(os.P_PID, ended.pid, os.WEXITED | os.WNOWAIT)
            self.assertEqual(gate_costs.most_held(str(ended.pid)), 0)

    def test_a_process_belongs_to_those_that_it_comes_from(self):
        own = str(os.getpid())
        with subprocess.Popen(['sleep', '60']) as child:
            self.assertTrue(gate_costs.belongs(str(child.pid), lambda it: it == own))
            self.assertTrue(gate_costs.belongs(str(child.pid), lambda it: it == str(child.pid)))
            self.assertFalse(gate_costs.belongs(own, lambda it: it == str(child.pid)))
            child.kill()


if __name__ == '__main__':
    unittest.main()
