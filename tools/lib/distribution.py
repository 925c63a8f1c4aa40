"""What is handed out of the repository: which files, and where an installation has them.

The folder of an unpacked archive has the same files at the same places as the repository, with the program at its top.
"""
import os
import pathlib
import re
import typing

from lib import documents
from lib.command import UNREADABLE, Stopped
from lib.repository import TOP, read_text
from lib.program import other
from lib.target import kit_of
from lib.version import version

PROGRAMS = ['ti_bench', 'ti_debug']
# the scripts of tools/ that users call as ti_bench-NAME, each with the folders and files of tools/ that it needs beside
# lib
TOOLS: typing.Dict[str, typing.List[str]] = {
    'archive': ['expanding', 'labelling'],
    'assemble': ['editing/left_out.py', 'expanding', 'stepping', 'warning'],
    'cartridge': ['expanding', 'packing', 'stepping'],
    'compare': ['comparing', 'expanding', 'profiling', 'stepping'],
    'debug': ['debugging', 'expanding', 'profiling', 'stepping'],
    'expand': ['expanding'],
    'label': ['labelling'],
    'lsp': ['editing/left_out.py', 'expanding', 'profiling', 'serving', 'stepping', 'testing', 'warning'],
    'pattern': ['drawing'],
    'profile': ['expanding', 'profiling', 'stepping'],
    'raw': [],
    'screen': ['stepping'],
    'steps': ['debugging', 'expanding', 'profiling', 'stepping'],
    'test': ['expanding', 'profiling', 'stepping', 'testing'],
    'watch': ['expanding', 'stepping'],
}
# the scripts that an installation has beside them
SCRIPTS = ['install', 'launcher']
# the modules of tools/lib that only scripts of developers use
NOT_HANDED_OUT = {'tools/lib/generated.py'}
# the scripts of the examples, which run in the repository and in an archive, beside tools/ and the program
NOT_INSTALLED = {'examples/run', 'examples/lib/__init__.py'}
# other files and folders
OTHERS = ['CHANGELOG.md', 'CONTRIBUTING.md', 'LICENSE', 'README.md', 'docs', 'editors', 'examples']
MANUALS = 'man'


class File(typing.NamedTuple):
    """The bytes of a file, and whether it is a program."""
    data: bytes
    executable: bool = False


class Link(typing.NamedTuple):
    """A symbolic link, by the path that it leads to, which begins where its own path begins."""
    target: str


def below(top, path):
    """The paths of the files that a file or folder of the repository holds, from its top on, but not those that Python
    or an editor keeps there."""
    found = top / path
    if found.is_dir():
        return sorted(inner for file in found.iterdir()
                      if file.name != '__pycache__' and not file.name.startswith('.') and not file.name.endswith('~')
                      for inner in below(top, file.relative_to(top)))
    if not found.is_file():
        raise Stopped(f'{found} is missing', UNREADABLE)
    return [str(path)]


def commands():
    """The commands of users, each with the script of tools/ that it is."""
    return {**dict.fromkeys(PROGRAMS, 'launcher'), **{f'ti_bench-{tool}': tool for tool in TOOLS}}


def kits_named(top=TOP):
    """The kits that README.md names: those with which a gate from nothing has passed."""
    return re.findall(r'`(rattle-kit-[^`\s]+)`', read_text(top / 'README.md'))


def kit(programs, top=TOP):
    """The line of the kit that has proved the programs: the file KIT of an archive, or what the builds have written.
    None if nothing says so of each of them, or if they are of two kits."""
    if (top / 'KIT').is_file():
        return read_text(top / 'KIT').strip()
    lines = {kit_of(program) for program in programs}
    return lines.pop() if len(lines) == 1 else None


def files(program, top=TOP):
    """All files that are handed out, by their paths, with the programs at the top, and KIT if it is known."""
    folders = ['lib', *sorted({folder for needed in TOOLS.values() for folder in needed})]
    named = [*(f'tools/{name}' for name in [*SCRIPTS, *TOOLS, *folders]), *OTHERS, MANUALS]
    paths = {path for name in named for path in below(top, pathlib.Path(name))} - NOT_HANDED_OUT
    found = {path: File((top / path).read_bytes(), os.access(top / path, os.X_OK)) for path in paths}
    programs = {name: other(program, name) for name in PROGRAMS}
    for name, place in programs.items():
        found[name] = File(pathlib.Path(place).read_bytes(), True)
    found['VERSION'] = File(f'{version(top)}\n'.encode('utf-8'))
    line = kit(programs.values(), top)
    if line:
        found['KIT'] = File(f'{line}\n'.encode('utf-8'))
    return found


def place_of(path, name, packed):
    """Where an installation has a file that is handed out. Its folder of documents has a name, and the manual pages
    have an ending if they are packed."""
    if path.startswith(f'{MANUALS}/'):
        return f'share/man/man1/{pathlib.PurePath(path).name}{packed}'
    if path in (*PROGRAMS, 'VERSION') or path.startswith(('tools/', 'editors/')):
        return f'lib/ti_bench/{path}'
    return f'share/doc/{name}/{path}'


def installed(found, name='ti_bench', packed=''):
    """Where an installation has the files that are handed out, with the links to its commands. Its documents say what
    holds there."""
    placed: typing.Dict[str, typing.Union[File, Link]] = {
        f'bin/{command}': Link(f'lib/ti_bench/tools/{script}') for command, script in commands().items()}
    places = {path: place_of(path, name, packed) for path in found if path not in NOT_INSTALLED}
    for path, place in places.items():
        placed[place] = found[path]
        if path.endswith('.md'):
            text = documents.installed(path, found[path].data.decode('utf-8'), places, TOOLS)
            placed[place] = File(text.encode('utf-8'))
    return placed
