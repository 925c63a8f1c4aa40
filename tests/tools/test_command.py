"""Tests of lib.command, lib.terminal and lib.program: how a script begins and ends, its help and its errors."""
import os
import pathlib
import signal
import subprocess
import sys
import time
import unittest

from calling import TOOLS, Calling, hearing
from lib import command, distribution, program, terminal

SCRIPT = """import os, signal, sys
sys.path.insert(0, {tools!r})
from lib import command
{text}
command.run(main)
"""
FULL = """def main():
    import resource
    signal.signal(signal.SIGXFSZ, signal.SIG_IGN)
    resource.setrlimit(resource.RLIMIT_FSIZE, (1, 1))
    with open('made', 'wb', buffering=0) as file:
        file.write(b'x')
        file.write(b'x')
"""


class Scripts(Calling):
    def script(self, text):
        """The words that run a script of this text."""
        return [sys.executable, self.file('script', SCRIPT.format(tools=str(TOOLS), text=text).encode())]

    def ended(self, text, **more):
        """How a script of this text ends."""
        return subprocess.run(self.script(text), cwd=self.folder, capture_output=True, text=True, **more)

    def test_an_error_without_a_name_is_not_called_one_of_standard_output(self):
        ended = self.ended(FULL)
        self.assertEqual((ended.returncode, ended.stderr), (3, 'script: File too large\n'))
        ended = self.ended('def main():\n    import errno\n    raise OSError(errno.EAGAIN, "no process")\n')
        self.assertEqual((ended.returncode, ended.stderr), (3, 'script: no process\n'))

    def test_an_error_of_a_file_has_its_name_and_no_control_codes(self):
        ended = self.ended('def main():\n    open("a\\x1b\\nb")\n')
        self.assertEqual((ended.returncode, ended.stderr), (3, 'script: a\\x1b\\x0ab: No such file or directory\n'))
        ended = self.ended('def main():\n    raise command.Stopped("a\\x07", 1, ["b\\n"])\n')
        self.assertEqual((ended.returncode, ended.stderr), (1, 'script: a\\x07\n  b\\x0a\n'))

    def test_a_full_output_is_named_also_after_a_help(self):
        for text in ('def main():\n    print("x")\n',
                     'def main():\n    command.parser("A text.").parse_args(["--help"])\n'):
            with open('/dev/full', 'wb') as full:
                ended = subprocess.run(self.script(text), stdout=full, stderr=subprocess.PIPE)
            self.assertEqual((ended.returncode, ended.stderr),
                             (3, b'script: standard output: No space left on device\n'))

    def test_a_reader_that_has_gone_ends_it_quietly(self):
        reader, writer = os.pipe()
        os.close(reader)
        ended = subprocess.run(self.script('def main():\n    print("x")\n'), stdout=writer, stderr=subprocess.PIPE)
        os.close(writer)
        self.assertEqual((ended.returncode, ended.stderr), (128 + signal.SIGPIPE, b''))

    def test_an_end_by_a_signal_is_not_stopped_by_another_one(self):
        text = ('def main():\n    try:\n        print("begun", flush=True)\n        signal.pause()\n    finally:\n'
                '        os.kill(os.getpid(), signal.SIGHUP)\n        os.kill(os.getpid(), signal.SIGTERM)\n'
                '        print("ended")\n        sys.stdout.flush()\n')
        with subprocess.Popen(self.script(text), stdout=subprocess.PIPE, stderr=subprocess.PIPE,
                              preexec_fn=hearing) as running:
            self.assertEqual(running.stdout.readline(), b'begun\n')
            time.sleep(0.05)
            running.terminate()
            self.assertEqual(running.communicate(timeout=20), (b'ended\n', b''))
        self.assertEqual(running.returncode, 128 + signal.SIGTERM)

    def test_an_input_is_read_no_further_than_the_program_reads(self):
        with open(self.folder / 'large', 'wb') as file:
            file.truncate(1 << 40)
        self.assertEqual(len(command.read(self.folder / 'large')), 1_048_577)
        text = 'def main():\n    print(len(command.input_bytes()), len(command.read("-")))\n'
        with open('/dev/zero', 'rb') as zeros:
            self.assertEqual(self.ended(text, stdin=zeros).stdout, '1048577 1048577\n')


class Words(Calling):
    def test_each_tool_has_a_version_and_starts_whatever_python_is_set_to(self):
        for tool in distribution.TOOLS:
            ended = self.call(tool, '--version', PYTHONSAFEPATH='1')
            self.assertEqual((ended.returncode, ended.stderr), (0, b''))
            self.assertRegex(ended.stdout.decode(), rf'^tools/{tool} [0-9]+\.[0-9]\S*\n$')

    def test_a_help_has_the_name_of_the_call(self):
        (self.folder / 'bin').mkdir()
        for tool in distribution.TOOLS:
            (self.folder / f'bin/ti_bench-{tool}').symlink_to(TOOLS / tool)
            ended = subprocess.run([self.folder / f'bin/ti_bench-{tool}', '--help'], capture_output=True, text=True)
            self.assertIn(f'ti_bench-{tool}', ended.stdout)
            self.assertNotIn('tools/', ended.stdout)
            self.assertIn(f'tools/{tool}', self.call(tool, '--help').stdout.decode())

    def test_a_number_is_in_its_range_however_it_is_written(self):
        taken = command.number(0, 100_000)
        self.assertEqual([taken(word) for word in ('0', '100000', '007', '0' * 5000)], [0, 100_000, 7, 0])
        for word in ('100001', '-1', '', '\u0663', '1e3', '9' * 5000, '0' * 5000 + '100001'):
            with self.assertRaisesRegex(Exception, 'no number from 0 to 100,000$') as raised:
                taken(word)
            self.assertLess(len(str(raised.exception)), 80)
        with self.assertRaises(Exception):
            command.number(1, 64)('0')


class Terminal(unittest.TestCase):
    def test_control_codes_are_escapes_and_all_else_is_left(self):
        self.assertEqual(terminal.escaped('\x1b]0;x\x07 \t\x7f\n\r\0'), '\\x1b]0;x\\x07 \t\\x7f\\x0a\\x0d\\x00')
        self.assertEqual(terminal.escaped('é\x9b\udc9b\udcff€'), 'é\\xc2\\x9b\\x9b\udcff€')

    def test_a_line_is_of_utf_8_or_of_bytes(self):
        self.assertEqual(terminal.line_of('é\x9b'.encode('utf-8')), 'é\\xc2\\x9b')
        self.assertEqual(terminal.line_of(b'\xe9\x9b'), '\udce9\\x9b')


class Programs(Calling):
    def test_a_run_has_its_status_and_what_it_wrote(self):
        ended = program.program().run('gasm', given=b' FOO\n')
        self.assertEqual((ended.status, ended.out, ended.fault), (1, b'', 'line 1: unknown operation'))

    def test_a_program_that_is_not_there_is_named(self):
        with self.assertRaisesRegex(command.Stopped, 'no program nowhere/ti_bench'):
            program.program('nowhere/ti_bench')
        with self.assertRaisesRegex(command.Stopped, '^/nowhere/ti_bench: No such file or directory$'):
            program.Program('/nowhere/ti_bench').run('gasm')

    def test_a_folder_that_is_not_there_is_named(self):
        with self.assertRaisesRegex(command.Stopped, '^/nowhere: No such file or directory$'):
            program.program().run('gasm', folder=pathlib.Path('/nowhere'))


if __name__ == '__main__':
    unittest.main()
