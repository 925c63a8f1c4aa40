"""The program ti_bench: where it is, and a run of it over bytes."""
import os
import pathlib
import shutil
import subprocess
import sys
import typing

from lib.command import UNREADABLE, Stopped, unreadable
from lib.command import name as script
from lib.repository import TOP, shown
from lib.target import Target


class Run(typing.NamedTuple):
    """How a run ended: its status, and what it wrote."""
    status: int
    out: bytes
    err: bytes

    @property
    def code(self):
        """The status that a script ends with after it: 128 and the number of the signal, if one ended the run."""
        return self.status if self.status >= 0 else 128 - self.status

    @property
    def fault(self):
        """The first line of standard error."""
        return self.err.decode('latin-1').partition('\n')[0]


class Program:
    """A program that reads bytes and writes bytes. Its runs take no longer than a clock says, if there is one."""

    def __init__(self, path):
        self.path, self.clock = path, None

    def run(self, *words, given=b'', folder=None, **more):
        """A run with these words on these bytes, in a folder."""
        left = {'timeout': self.clock.left} if self.clock else {}
        try:
            ended = subprocess.run([self.path, *words], input=given, capture_output=True, cwd=folder, **left, **more)
        except subprocess.TimeoutExpired:
            if not self.clock:
                raise
            raise self.clock.over() from None
        except OSError as error:
            # the name in the error may be that of the folder
            raise unreadable(error, error.filename or self.path) from None
        return Run(ended.returncode, ended.stdout, ended.stderr)


def other(path, name):
    """The path of a program by the path of ti_bench: its own; or the one that a variable names, as TI_DEBUG; or the one
    beside it, as in an archive and an installation; or the one that is built in the folder of its crate. If ti_bench is
    the repository's, so is the other."""
    own = pathlib.Path(path)
    if name == 'ti_bench':
        return path
    named = os.environ.get(name.upper())
    if not named and own == TOP / 'crates/ti_bench/out/ti_bench':
        return of_repository(name)
    places = [own.with_name(name), own.parent.parent.parent / name / 'out' / name]
    found = named or next((str(place) for place in places if place.is_file()), None)
    if not found:
        raise Stopped(f'no program {name} beside {path}', UNREADABLE)
    return str(pathlib.Path(shutil.which(found) or found).absolute())


def option(parser, use='run'):
    """The option that names another program, and what is done with it."""
    parser.add_argument('--program', metavar='PATH', help=f'the program to {use}, in place of the one that belongs to '
                        'this script; the variable TI_BENCH names one too')


def program(path=None):
    """The program at a path; without one the program that TI_BENCH names, or the one that belongs to the scripts: in
    an installation it is beside them, in the repository it is the one that is built."""
    path = path or os.environ.get('TI_BENCH')
    if path:
        found = shutil.which(path)
        if not found:
            is_there = os.path.isfile(path) and not os.access(path, os.X_OK)
            raise Stopped(f'{path}: not executable' if is_there else f'no program {path}', UNREADABLE)
        return Program(str(pathlib.Path(found).absolute()))
    if not (TOP / 'crates.txt').is_file():
        return Program(str(TOP / 'ti_bench'))
    return Program(of_repository('ti_bench'))


def of_repository(name):
    """The path of a program of the repository. It is never built here, since that takes long; an old one is used, which
    is said."""
    target = Target(name)
    if not target.is_there():
        raise Stopped(f'no program is built: ./{name} builds it, or set {name.upper()}', UNREADABLE)
    source = target.newer_source()
    if source:
        print(f'{script()}: {shown(source)} is newer than the program; ./{name} builds it anew', file=sys.stderr)
    return str(target.program)
