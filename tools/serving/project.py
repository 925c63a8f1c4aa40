"""The sources that are known: those that are open, as their editor has them, and the files that they take in."""
import os
import re
import stat
import typing

from lib.command import MOST_BYTES
from lib.sources import COMMANDS

from .text import Document

# the languages by their names in editors, and by the command of ti_bench that takes a source
LANGUAGES, OF_COMMAND = {'ti99gpl': 'gpl', 'ti99asm': 'asm'}, {'gasm': 'gpl', 'asm': 'asm'}
OF_LANGUAGE = {language: command for command, language in OF_COMMAND.items()}
NAMED = re.compile(rb'^[^\s*]*[ \t]+(?:COPY|BIN)[ \t]+(["\'])(.+?)\1', re.M | re.I)
# how deep files are taken in, and the most files of a folder that are looked at
DEEPEST, MOST_FILES = 4, 1000


class Source(typing.NamedTuple):
    """What one run of the program reads: the document of the source, and those that it takes in by their names."""
    language: str
    root: Document
    files: dict

    @property
    def command(self):
        return OF_LANGUAGE[self.language]

    def document(self, file):
        return self.files.get(file) if file else self.root

    @property
    def documents(self):
        return [self.root, *(it for it in self.files.values() if it is not self.root)]

    def file_of(self, uri):
        """The name of a file that is taken in, or None for the source itself."""
        return None if uri == self.root.uri else next(
            (name for name, document in self.files.items() if document.uri == uri), None)

    def with_lines(self, texts):
        """The source with other lines, by the URI of their document."""
        def new(document):
            return document.with_lines(texts[document.uri]) if document.uri in texts else document
        return Source(self.language, new(self.root), {name: new(it) for name, it in self.files.items()})


def stamp_of(path):
    """What changes if a regular file changes; None if there is none."""
    try:
        found = os.lstat(path)
    except OSError:
        return None
    return (found.st_mtime_ns, found.st_size, found.st_ino) if stat.S_ISREG(found.st_mode) else None


def read_file(path):
    """The bytes of a regular file, and one more than any may have; None if it cannot be read."""
    try:
        descriptor = os.open(path, os.O_RDONLY | os.O_NOFOLLOW | os.O_NONBLOCK)
        with open(descriptor, 'rb') as file:
            return file.read(MOST_BYTES + 1) if stat.S_ISREG(os.fstat(descriptor).st_mode) else None
    except OSError:
        return None


class Project:
    """The texts that are open by their URIs. Of files that are not, the texts that sources take in are kept by their
    paths, and of the other files of a folder only the names that they have."""

    def __init__(self):
        self.open, self.kept, self.names = {}, {}, {}

    def language(self, document):
        """The language of a document: by what the editor says, else by the ending of its name."""
        ending = os.path.splitext(document.path or '')[1].lower()
        return LANGUAGES.get(document.language) or OF_COMMAND.get(COMMANDS.get(ending), 'asm')

    def at(self, path):
        """The document at a path: the one that is open, else the regular file; None if there is none."""
        path = os.path.normpath(path)
        for document in self.open.values():
            if document.path == path:
                return document
        found = stamp_of(path)
        if not found:
            self.kept.pop(path, None)
            return None
        if path not in self.kept or self.kept[path][0] != found:
            data = read_file(path)
            if data is None:
                return None
            self.kept[path] = found, Document.of_file(path, data)
        return self.kept[path][1]

    def names_at(self, path):
        """The names of the files that the file at a path names."""
        for document in self.open.values():
            if document.path == path:
                return self.named_in(document)
        found = stamp_of(path)
        if not found:
            return set()
        if path not in self.names or self.names[path][0] != found:
            data = read_file(path) or b''
            self.names[path] = found, {os.fsdecode(it[1]) for it in NAMED.findall(data)}
        return self.names[path][1]

    def named_in(self, document):
        """The names of the files that the lines of a document name."""
        if document.named is None:
            document.named = {os.fsdecode(found[1]) for found in NAMED.findall(document.data)}
        return document.named

    def source(self, root, language=None):
        """The source of a document, with all files that it takes in, as they are now."""
        files, texts, language = {}, [root], language or self.language(root)
        folder = os.path.dirname(root.path) if root.path else None
        for _ in range(DEEPEST if folder else 0):
            names = {name for text in texts for name in self.named_in(text)} - set(files)
            if any('\\' in name for name in names):
                # the parameter of a macro is in the name
                names = set(self.beside(folder)) - set(files)
            found = {name: self.at(os.path.join(folder, name)) for name in names if '/' not in name}
            texts = [document for document in found.values() if document]
            files.update({name: document for name, document in found.items() if document})
        return Source(language, root, files)

    def beside(self, folder):
        """The names of the regular files of a folder that a source may name."""
        try:
            with os.scandir(folder) as found:
                return sorted(it.name for it in found if not it.name.startswith('.')
                              and it.is_file(follow_symlinks=False))[:MOST_FILES]
        except OSError:
            return []

    def roots(self, document):
        """The documents that a document belongs to, each with its language: those of its folder that take it in, and
        that no other takes in, else itself."""
        if not document.path:
            return [(document, self.language(document))]
        folder = os.path.dirname(document.path)
        names = {it.name for it in self.open.values() if it.path and os.path.dirname(it.path) == folder}
        names |= {name for name in self.beside(folder) if os.path.splitext(name)[1].lower() in COMMANDS}
        above = {}
        for name in names:
            for copied in self.names_at(os.path.join(folder, name)):
                above.setdefault(copied, set()).add(name)
        roots, seen, waiting = [], set(), [document.name]
        while waiting:
            name = waiting.pop()
            if name in seen:
                continue
            seen.add(name)
            if name in above:
                waiting += above[name]
            elif name != document.name:
                roots.append(self.at(os.path.join(folder, name)))
        roots = sorted(filter(None, roots), key=lambda it: it.path) or [document]
        return [(it, self.language(it)) for it in roots]
