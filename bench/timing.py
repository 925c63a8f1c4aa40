"""Runs of programs over an input, which are timed."""
import math
import os
import pathlib
import signal
import subprocess
import time

from lib.repository import read_text


class Timing:
    """A folder for the input and what the runs write, and how often a run is made."""

    def __init__(self, folder, runs):
        self.folder, self.runs = pathlib.Path(folder), runs
        self.input, self.out, self.err = (self.folder / name for name in ('input', 'out', 'err'))

    def best_time(self, words):
        """The best of several runs, in nanoseconds. The output of the run before is removed first, since cutting a
        large file off may take longer than the run."""
        least = math.inf
        for _ in range(self.runs):
            self.out.unlink(missing_ok=True)
            actions = [(os.POSIX_SPAWN_OPEN, 0, self.input, os.O_RDONLY, 0),
                       (os.POSIX_SPAWN_OPEN, 1, self.out, os.O_WRONLY | os.O_CREAT, 0o600),
                       (os.POSIX_SPAWN_OPEN, 2, self.err, os.O_WRONLY | os.O_CREAT | os.O_TRUNC, 0o600)]
            began = time.monotonic_ns()
            child = os.posix_spawn(words[0], words, os.environ, file_actions=actions)
            os.waitpid(child, 0)
            least = min(least, time.monotonic_ns() - began)
        return least

    def peak_memory(self, words):
        """The most memory that a run holds, in KiB. All of it is taken before the first byte is written, so the run
        is stopped there by a pipe that is full, and its peak is read while it waits; a run that writes nothing has
        none to show."""
        reading, writing = os.pipe()
        os.set_blocking(writing, False)
        try:
            while True:
                os.write(writing, bytes(4096))
        except BlockingIOError:
            os.set_blocking(writing, True)
        with open(self.input, 'rb') as given:
            run = subprocess.Popen(words, stdin=given, stdout=writing, stderr=writing)
        waited = 0
        while waited < 3 and run.poll() is None:
            time.sleep(0.02)
            state = read_text(f'/proc/{run.pid}/stat').rpartition(')')[2].split()[0]
            waited = waited + 1 if state == 'S' else 0
        shown = read_text(f'/proc/{run.pid}/status') if run.poll() is None else ''
        run.send_signal(signal.SIGTERM)
        run.wait()
        os.close(reading)
        os.close(writing)
        return next((line.split()[1] for line in shown.splitlines() if line.startswith('VmHWM')), '-')
