"""Files below a folder, with a list of them there, by which they are replaced and removed, and no others are."""
import contextlib
import hashlib
import os
import pathlib
import tempfile

from lib.command import UNREADABLE, Stopped, unreadable
from lib.distribution import Link
from lib.output import replace

LIST = 'lib/ti_bench/installed'
FILE, LINK, FOLDER = 'file', 'link', 'folder'
# the first line of a list and its last one; the lists of version 1.1 have neither
BEGIN, END = 'begin\t\t', 'end\t\t'


class Installation:
    """What was put below a folder, by its list: lines of a kind, the checksum of a file or the target of a link, and a
    path from the folder on. While files are replaced a path has two lines, and either may be true of it."""

    def __init__(self, prefix):
        self.prefix = pathlib.Path(os.path.abspath(prefix))
        self.list = self.prefix / LIST
        self.entries, self.folders = {}, []
        for line in self.lines():
            kind, mark, path = self.parsed(line)
            if kind == FOLDER:
                self.folders.append(path)
            else:
                self.entries.setdefault(path, []).append((kind, mark))

    def lines(self):
        """The lines of the list, if there is one. It is written in one step, so one without its end is damaged."""
        if not self.list.is_file():
            return []
        lines = self.list.read_bytes().decode('utf-8', 'replace').split('\n')
        is_whole = len(lines) > 1 and lines.pop() == '' and (lines[0] != BEGIN or lines[-1] == END)
        if not is_whole:
            raise Stopped(f'the list {self.list} is damaged: its end is missing', UNREADABLE)
        return [line for line in lines if line not in (BEGIN, END)]

    def parsed(self, line):
        """The parts of a line of the list. Only a folder may be outside of the installation."""
        parts = line.split('\t')
        if len(parts) != 3 or parts[0] not in (FILE, LINK, FOLDER):
            raise Stopped(f'{self.list} is no list of an installation', UNREADABLE)
        if parts[0] != FOLDER and (os.path.isabs(parts[2]) or '..' in parts[2].split('/')):
            raise Stopped(f'{self.list} names a file of another folder: {parts[2]}', UNREADABLE)
        return parts

    def found(self, path):
        """The kind of what is at a path, with its checksum or target; None if nothing is."""
        place = self.prefix / path
        if place.is_symlink():
            return LINK, os.readlink(place)
        if place.is_file():
            return FILE, hashlib.sha256(place.read_bytes()).hexdigest()
        return (FOLDER, '') if os.path.lexists(place) else None

    def own(self, path):
        """Whether what is at a path was put there and is unchanged."""
        return self.found(path) in self.entries.get(path, [])

    def in_the_way(self, path):
        """What is at a path, or at a folder above it, and was not put there; None if nothing is."""
        for folder in (self.prefix / path).parents:
            if os.path.lexists(folder) and not folder.is_dir():
                return folder
        return self.prefix / path if self.found(path) and not self.own(path) else None

    def target(self, path, link):
        """What a link holds: the way from its folder, wherever that really is."""
        folder = os.path.realpath((self.prefix / path).parent)
        return os.path.relpath(os.path.realpath(self.prefix / link.target), folder)

    def marks(self, files):
        """Kind, and checksum or target, of files and links that are to be put here."""
        return {path: [(LINK, self.target(path, file)) if isinstance(file, Link)
                       else (FILE, hashlib.sha256(file.data).hexdigest())] for path, file in files.items()}

    def write_list(self, *all_entries):
        """Writes the list, with all of these entries."""
        # as a new file in its place: an upgrade doubles the list, so a full disk meets it before any other file
        rows = {f'{FOLDER}\t\t{folder}\n' for folder in self.folders}
        rows |= {f'{kind}\t{mark}\t{path}\n' for entries in all_entries
                 for path, marks in entries.items() for kind, mark in marks}
        self.made(self.list, replace, ''.join([f'{BEGIN}\n', *sorted(rows), f'{END}\n']).encode('utf-8'), 0o644)

    def made(self, path, work, *more):
        """Does work that makes what is at a path; an error has the name of that."""
        try:
            return work(path, *more)
        except OSError as error:
            raise unreadable(error, path) from None

    def make_folders(self, paths):
        """Makes the folders above paths, and keeps which ones were made."""
        missing = {folder for path in paths for folder in (self.prefix / path).parents if not folder.exists()}
        for folder in sorted(missing):
            self.made(folder, os.mkdir, 0o755)
            self.folders.append(os.path.relpath(folder, self.prefix))
            self.made(folder, os.chmod, 0o755)

    def begin(self, marks):
        """Makes the folders and the list, with the old marks too, so that the next call knows all files if this one is
        stopped. If that fails, nothing is left of it."""
        before = [*self.folders]
        try:
            self.make_folders([LIST, *marks])
            self.write_list(self.entries, marks)
        except BaseException:
            self.take_folders([folder for folder in self.folders if folder not in before])
            raise

    def put(self, files):
        """Puts files and links here, in the place of those that were put here before; the paths of what was put here
        before, is needed no more, and was changed, so that it is left."""
        conflicts = sorted({str(found) for path in [LIST, *files] if path != LIST or not self.list.is_file()
                            for found in [self.in_the_way(path)] if found})
        if conflicts:
            raise Stopped('nothing is installed, since these were not put here, or changed since:', below=conflicts)
        marks = self.marks(files)
        self.begin(marks)
        for path, file in files.items():
            self.write(path, file)
        left = self.take({path for path in self.entries if path not in files})
        self.take_folders(self.folders)
        self.entries = marks
        self.keep()
        return left

    def keep(self):
        """Writes the list of what is here."""
        self.folders = [folder for folder in self.folders if (self.prefix / folder).is_dir()]
        self.write_list(self.entries)

    def write(self, path, file):
        """Puts a file or a link at a path, whole or not at all."""
        place = self.prefix / path
        if isinstance(file, Link):
            self.made(place, link, self.target(path, file))
        else:
            self.made(place, replace, file.data, 0o755 if file.executable else 0o644)

    def take(self, paths):
        """Removes files and links that are as they were put here; the paths of those that are left."""
        left = []
        for path in sorted(paths):
            if self.own(path):
                os.unlink(self.prefix / path)
                self.take_compiled(self.prefix / path)
            elif self.found(path):
                left.append(path)
        return left

    def take_folders(self, folders):
        """Removes those of some folders that are empty."""
        places = [pathlib.Path(os.path.normpath(self.prefix / folder)) for folder in folders]
        for place in sorted(places, key=lambda place: -len(place.parents)):
            with contextlib.suppress(OSError):
                os.rmdir(place)

    def take_compiled(self, path):
        """Removes what Python keeps of a module."""
        kept = path.parent / '__pycache__'
        if path.suffix == '.py' and kept.is_dir():
            for compiled in kept.iterdir():
                if compiled.name.split('.')[0] == path.stem and compiled.suffix == '.pyc':
                    compiled.unlink()
            with contextlib.suppress(OSError):
                os.rmdir(kept)

    def remove(self):
        """Removes the installation; the paths of files that were changed, which are left. The list of these stays."""
        if not self.list.is_file():
            raise Stopped(f'nothing was installed in {self.prefix}')
        left = self.take(self.entries)
        if left:
            self.take_folders(self.folders)
            self.entries = {path: self.entries[path] for path in left}
            self.keep()
        else:
            os.unlink(self.list)
            self.take_folders(self.folders)
        return left


def link(place, target):
    """Makes a symbolic link in one step, in the place of what is there."""
    with tempfile.TemporaryDirectory(prefix='.ti_bench-', dir=place.parent) as folder:
        new = os.path.join(folder, place.name)
        os.symlink(target, new)
        os.replace(new, place)
