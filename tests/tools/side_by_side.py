"""Modules of tests that run side by side, each in a process of its own, and what they all say together.

These are no workers of one process: tests change signals and the current folder, and one that dies costs no other.
"""
import collections
import concurrent.futures
import contextlib
import pathlib
import re
import subprocess
import sys
import tempfile
import threading
import time
import typing

RUN = pathlib.Path(__file__).resolve().with_name('run')
# how unittest ends what it writes: a line, the number of tests, and how many had each other end
END = re.compile(r'-{70}\nRan ([0-9]+) tests? in [0-9.]+s\n\n(?:OK|FAILED)(?: \((.*)\))?\n\Z')
FAULTS = re.compile(r'^={70}$', re.M)


class Said(typing.NamedTuple):
    """What a module has said: whether all its tests pass, how many there are, how many of them had another end than
    that they pass, by its name, and its faults in full."""
    passes: bool
    tests: int
    others: typing.Dict[str, int]
    faults: str


def said_of(name, status, text):
    """What is said of a module whose process has ended."""
    end = END.search(text)
    faults = FAULTS.search(text)
    if not end or (status != 0) != bool(faults):
        return Said(False, 0, {'errors': 1}, f'{"=" * 70}\nERROR: {name} ended with status {status}\n{text}\n')
    others = dict(part.split('=') for part in end[2].split(', ')) if end[2] else {}
    return Said(not faults, int(end[1]), {name: int(number) for name, number in others.items()},
                text[faults.start():end.start()] if faults else '')


class Processes:
    """The processes of modules: they are ended together."""

    def __init__(self, words):
        self.words, self.running, self.is_ended, self.lock = words, set(), False, threading.Lock()

    def begun(self, name, output):
        """A process that tests a module, or None once all are to end."""
        with self.lock:
            if self.is_ended:
                return None
            process = subprocess.Popen([RUN, *self.words, name], stdin=subprocess.DEVNULL, stdout=output, stderr=output)
            self.running.add(process)
            return process

    def said(self, name):
        """What a module says; None if all are to end."""
        with tempfile.TemporaryFile() as output:
            process = self.begun(name, output)
            if not process:
                return None
            status = process.wait()
            with self.lock:
                self.running.discard(process)
            output.seek(0)
            return said_of(name, status, output.read().decode('utf-8', 'replace'))

    def end(self):
        """Ends those that run, and lets no other begin."""
        with self.lock:
            self.is_ended = True
            for process in self.running:
                with contextlib.suppress(ProcessLookupError):
                    process.terminate()


def tested(names, words, count, first):
    """Tests modules, so many side by side, up to the first that fails, or all: what they have said, and of each a line
    once it is known."""
    processes, found = Processes(words), []
    with concurrent.futures.ThreadPoolExecutor(count) as pool:
        try:
            waiting = {pool.submit(processes.said, name): name for name in names}
            for done in concurrent.futures.as_completed(waiting):
                said = done.result()
                tests = 'test' if said.tests == 1 else 'tests'
                print(f'{waiting[done]}: {said.tests} {tests}{"" if said.passes else ", FAILED"}', flush=True)
                found.append(said)
                if first and not said.passes:
                    break
        finally:
            processes.end()
    return found


def test(names, words, count, first):
    """The same, with what unittest says at its end; whether all tests pass."""
    begun = time.monotonic()
    found = tested(names, words, count, first)
    others: typing.Counter[str] = collections.Counter()
    for said in found:
        others.update(said.others)
        sys.stdout.write(said.faults)
    more = f' ({", ".join(f"{name}={number}" for name, number in sorted(others.items()))})' if others else ''
    passes = all(said.passes for said in found)
    print(f'{"-" * 70}\nRan {sum(said.tests for said in found)} tests in {time.monotonic() - begun:.3f}s\n\n'
          f'{"OK" if passes else "FAILED"}{more}')
    return passes
