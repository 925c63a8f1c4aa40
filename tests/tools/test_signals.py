"""Tests that a signal to a script ends what it has begun."""
import os
import pathlib
import shutil
import signal
import subprocess
import time
import unittest

from calling import TOOLS, Calling, hearing, is_running
from lib.program import other

# A program that says that it has begun, and then waits; but it answers at once if it is to make no step. It waits before
# that too, so that the script that has begun it knows of it.
SLOW = b"""#!/bin/sh
case "$1 $2" in
    'glist '* | *' 0') exit 0 ;;
    'link '*) echo 'entry >A000'; exit 0 ;;
esac
sleep 0.5
echo $$ >>"$BEGUN"
exec sleep 60
"""


def dumped(registers):
    """The end of a report, with these registers of the video processor and memories of 0."""
    pad, video = ('\n'.join([f'>{at:04X} ' + ' '.join(['00'] * 16), '*']) for at in (0x8300, 0))
    return f'exit at >6000\npad\n{pad}\nvdp\n{video}\nregs {registers}\ngrom >0000\n'


class Signals(Calling):
    def setUp(self):
        super().setUp()
        self.slow, self.list = self.file('slow', SLOW), self.folder / 'begun'
        self.slow.chmod(0o755)
        self.file('a.gpl', b'S EXIT\n END S\n')
        self.file('a.obj', b'')

    def begun(self):
        """The numbers of the programs that have begun."""
        return self.list.read_text().split() if self.list.exists() else []

    def ended_by(self, number, script, *words, count=1):
        """The status of a script that gets a signal once some programs have begun. It and they end at once."""
        self.list.unlink(missing_ok=True)
        programs = {name: str(self.slow) for name in ('TI_BENCH', 'TI_DEBUG')}
        with subprocess.Popen([TOOLS / script, *words], cwd=self.folder, stdin=subprocess.DEVNULL,
                              stdout=subprocess.DEVNULL, stderr=subprocess.PIPE, preexec_fn=hearing,
                              env={**os.environ, **programs, 'BEGUN': str(self.list)}) as running:
            latest = time.monotonic() + 20
            while len(self.begun()) < count and time.monotonic() < latest:
                time.sleep(0.05)
            running.send_signal(number)
            self.assertEqual(running.communicate(timeout=20), (None, b''))
        self.assertEqual([it for it in self.begun() if pathlib.Path('/proc', it).exists()], [])
        return running.returncode

    def test_the_program_of_a_script_ends_with_it(self):
        for number in (signal.SIGTERM, signal.SIGHUP, signal.SIGINT):
            for script, *words in (('assemble', 'a.gpl'), ('label', 'gdis', '6000'), ('steps', 'a.gpl'),
                                   ('steps', '--exec', 'a.obj'), ('watch', 'a.gpl', '5', 'pad:8300')):
                with self.subTest(script=script, words=words, number=number):
                    self.assertEqual(self.ended_by(number, script, *words), 128 + number)

    def test_the_files_of_an_archive_that_are_not_begun_are_dropped(self):
        for number in range(20):
            self.file(f'images/{number}.bin', bytes([11]))
        for number in (signal.SIGTERM, signal.SIGINT):
            status = self.ended_by(number, 'archive', '-j', '2', 'images', count=2)
            self.assertEqual((status, len(self.begun())), (128 + number, 2))

    def test_the_cases_of_tests_that_are_not_begun_are_dropped(self):
        rows = b''.join(b'*!  %d  1\n' % number for number in range(20))
        self.file('a.gpl', b'*! test a\n*!  >8300 -> steps\n' + rows + b'S RTN\n')
        bench = os.environ['TI_BENCH']
        for command, path in ('gasm', bench), ('glist', other(bench, 'ti_debug')):
            answers = f"in\n    '{command} '*) exec {path} \"$@\" ;;\n"
            self.slow.write_text(self.slow.read_text().replace('in\n', answers, 1))
        for number in (signal.SIGTERM, signal.SIGINT):
            status = self.ended_by(number, 'test', '--workers', '2', 'a.gpl', count=2)
            self.assertEqual((status, len(self.begun())), (128 + number, 2))

    def test_a_command_whose_costs_are_counted_ends_too_and_the_table_is_written(self):
        line = 'sleep 60 & echo $! $$ >begun; wait'
        for number in (signal.SIGTERM, signal.SIGINT):
            self.list.unlink(missing_ok=True)
            with subprocess.Popen([TOOLS / 'gate_costs', 'bash', '-c', line], cwd=self.folder, stdout=subprocess.PIPE,
                                  stderr=subprocess.PIPE, preexec_fn=hearing) as running:
                latest = time.monotonic() + 20
                while len(self.begun()) < 2 and time.monotonic() < latest:
                    time.sleep(0.05)
                running.send_signal(number)
                out, err = running.communicate(timeout=20)
            self.assertEqual((running.returncode, err), (128 + number, b''))
            self.assertEqual(out.splitlines()[0], b'| Crate | Proof, s | Edits, s | Tests, s | Memory, MiB |')
            self.assertEqual([it for it in self.begun() if is_running(it)], [])

    def test_frames_are_all_there_or_none_and_the_next_call_writes_them(self):
        steps = ''.join(f'{number:6} >6000 S00 D9F R7E ST @>8300,>01 W7={number % 8 + 1:02X}\n'
                        for number in range(2, 400))
        last = '00 E0 00 00 00 00 00 08'
        report = f'     1 >6000 S00 D9F R7E ST @>8300,>01 W1=E0 W7=02\n{steps}' + dumped(last)
        for number in (signal.SIGTERM, signal.SIGINT):
            with subprocess.Popen([TOOLS / 'screen', '--frames', 'frames'], cwd=self.folder, stdin=subprocess.PIPE,
                                  stderr=subprocess.PIPE, preexec_fn=hearing) as running:
                running.stdin.write(report.encode())
                running.stdin.close()
                latest = time.monotonic() + 20
                while not (self.folder / 'frames').exists() and time.monotonic() < latest:
                    time.sleep(0.002)
                running.send_signal(number)
                status = running.wait(20)
                self.assertEqual(running.stderr.read(), b'')
            # on a machine that has much else to do the signal may come after the last frame
            if (self.folder / 'frames').exists():
                self.assertEqual(len(os.listdir(self.folder / 'frames')), 399)
                shutil.rmtree(self.folder / 'frames')
            else:
                self.assertEqual(status, 128 + number)
        ended = self.call('screen', '--frames', 'frames', given=report.encode())
        self.assertEqual((ended.returncode, len(os.listdir(self.folder / 'frames'))), (0, 399), ended.stderr)

    def test_a_signal_that_is_not_heard_ends_nothing(self):
        self.file('soon', b'#!/bin/sh\necho $$ >>begun\nsleep 1\n').chmod(0o755)
        line = 'trap "" HUP; "$0" a.gpl & while ! [ -s begun ]; do sleep 0.05; done; kill -HUP $!; wait $!'
        ended = subprocess.run(['bash', '-c', line, TOOLS / 'assemble'], cwd=self.folder, capture_output=True,
                               env={**os.environ, 'TI_BENCH': './soon'})
        self.assertEqual((ended.returncode, ended.stderr), (0, b''))


if __name__ == '__main__':
    unittest.main()
