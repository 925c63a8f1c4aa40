"""Runs of the two programs that can be stopped, and the folders in which they find the files of a source."""
import contextlib
import fcntl
import itertools
import os
import pathlib
import shutil
import subprocess
import tempfile
import threading
import time

from lib.command import Stopped, unreadable
from lib.program import Run, other, program

PREFIX, LOCK = 'ti_bench-lsp-', 'lock'
# the command of ti_debug that lists a source, by the command of ti_bench that assembles it
LISTS = {'gasm': 'glist', 'asm': 'list'}
# a folder that is younger, in seconds, may be one that is just made
YOUNG = 60


class Cancelled(Exception):
    """The work is not wanted any more."""


class Programs:
    """The paths of both programs, which are there already: nothing is built."""

    def __init__(self, path=None):
        self.bench = program(path).path
        self.debug = other(self.bench, 'ti_debug')
        for it in (self.bench, self.debug):
            if not os.access(it, os.X_OK):
                raise Stopped(f'no program {it}')


class Work:
    """Runs that are made for one purpose, one after the other. Another thread may end them. It stands for a program: a
    source is listed in place of being assembled, and the listing of the last run is kept."""

    def __init__(self, programs):
        self.programs, self.process, self.is_cancelled, self.runs = programs, None, False, 0
        self.lock, self.last = threading.Lock(), None

    def cancel(self):
        with self.lock:
            self.is_cancelled = True
            if self.process:
                self.process.kill()

    def check(self):
        if self.is_cancelled:
            raise Cancelled

    def run(self, kind, given=b'', folder=None):
        """A run that lists a source."""
        self.last = self.made(self.programs.debug, LISTS[kind], given=given, folder=folder)
        return self.last

    def assembled(self, kind, given, folder):
        """A run that assembles a source."""
        return self.made(self.programs.bench, kind, given=given, folder=folder)

    def made(self, path, *words, given, folder):
        with self.lock:
            self.check()
            try:
                self.process = subprocess.Popen([path, *words], stdin=subprocess.PIPE, stdout=subprocess.PIPE,
                                                stderr=subprocess.PIPE, cwd=folder)
            except OSError as error:
                raise unreadable(error, error.filename or path) from None
        self.runs += 1
        out, err = self.process.communicate(given)
        with self.lock:
            self.check()
            ended, self.process = self.process, None
        return Run(ended.returncode, out, err)


class Folders:
    """The folder of this server in the folder for temporary files, in which all that it makes for a time is from then
    on. Its lock is held as long as the server lives, so that another one removes what a server left that was killed."""

    def __init__(self):
        sweep(pathlib.Path(tempfile.gettempdir()))
        self.path = pathlib.Path(tempfile.mkdtemp(prefix=PREFIX))
        self.lock, self.numbers = os.open(self.path / LOCK, os.O_CREAT | os.O_RDWR, 0o600), itertools.count()
        fcntl.flock(self.lock, fcntl.LOCK_EX)
        tempfile.tempdir = os.environ['TMPDIR'] = str(self.path)

    def new(self):
        return Shadow(self.path / str(next(self.numbers)))

    def remove(self):
        shutil.rmtree(self.path, ignore_errors=True)


def sweep(folder):
    """Removes the folders of servers that have ended without that."""
    for path in folder.glob(f'{PREFIX}*'):
        with contextlib.suppress(OSError):
            found = path.lstat()
            if path.is_symlink() or found.st_uid != os.geteuid() or time.time() - found.st_mtime < YOUNG:
                continue
            lock = os.open(path / LOCK, os.O_RDWR | os.O_CREAT | os.O_NOFOLLOW, 0o600)
            try:
                fcntl.flock(lock, fcntl.LOCK_EX | fcntl.LOCK_NB)
                shutil.rmtree(path, ignore_errors=True)
            finally:
                os.close(lock)


class Shadow:
    """A folder with the files of a source as they are in the editor. The programs open regular files of their folder
    alone, so links would not do."""

    def __init__(self, path):
        self.path, self.files = path, {}

    def put(self, files):
        """Writes the files whose bytes are others than before, and removes those that are gone."""
        self.path.mkdir(exist_ok=True)
        for name in set(self.files) - set(files):
            (self.path / name).unlink()
            del self.files[name]
        for name, data in files.items():
            if self.files.get(name) is not data:
                (self.path / name).write_bytes(data)
                self.files[name] = data

    def remove(self):
        shutil.rmtree(self.path, ignore_errors=True)
