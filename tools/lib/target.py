"""The programs of the repository: where each is built, and whether a source is newer."""
import hashlib
import os
import pathlib
import subprocess

from lib import output
from lib.command import Stopped
from lib.repository import TOP, crates, crates_below, read_text


def inside(folder):
    """The folder and all that is below it, if it is there."""
    return [folder, *folder.rglob('*')] if folder.is_dir() else []


def changed(path):
    """When a file was last changed, in nanoseconds; long ago if it is not there."""
    try:
        return path.stat().st_mtime_ns
    except OSError:
        return 0


def checksum(path):
    """The SHA-256 of a file."""
    return hashlib.sha256(path.read_bytes()).hexdigest()


def kit_file(program):
    """The file beside a program that names the kit which has proved it: the line of that, and the program's checksum,
    so that it says nothing of another program at the same place."""
    return pathlib.Path(f'{program}.kit')


def kit_of(program):
    """The line of the kit that has proved a program; None if nothing says so."""
    try:
        line, mark = read_text(kit_file(program)).splitlines()
        return line if mark == checksum(pathlib.Path(program)) else None
    except (OSError, ValueError):
        return None


class Target:
    """A program: its name, the folder of what is built, the program there, and the log of its build."""

    def __init__(self, name, top=TOP):
        self.name, self.top, self.out = name, top, pathlib.Path(top, 'crates', name, 'out')
        self.program, self.log = self.out / name, self.out / 'build.log'

    def is_there(self):
        """Whether it can be run."""
        return os.access(self.program, os.X_OK)

    def write_kit(self):
        """Writes which kit has proved the program: the one whose rt is on the path."""
        ended = subprocess.run(['rt', 'version'], stdout=subprocess.PIPE)
        line = ended.stdout.decode('utf-8').strip()
        if ended.returncode or not line:
            raise Stopped('rt does not say of which kit it is')
        output.write(kit_file(self.program), f'{line}\n{checksum(self.program)}\n'.encode('utf-8'))

    def newer_source(self):
        """A source of the crates that it uses which is newer than the program, if there is one."""
        names = crates_below([self.name], crates(self.top))
        sources = [self.top / 'crates.txt',
                   *(path for name in names for path in inside(self.top / 'crates' / name / 'src'))]
        made = changed(self.program) if self.is_there() else 0
        return next((path for path in sources if changed(path) > made), None)
