"""The folder that the scripts belong to, its texts, which are UTF-8 in every locale, and its crates."""
import collections
import pathlib

TOP = pathlib.Path(__file__).resolve().parent.parent.parent
Crate = collections.namedtuple('Crate', 'name heading uses')


def read_text(path):
    """A file's text."""
    return pathlib.Path(path).read_text(encoding='utf-8')


def write_text(path, text):
    """Makes a file of a text."""
    pathlib.Path(path).write_bytes(text.encode('utf-8'))


def shown(path):
    """A path as it is shown: from the top of the repository on, if it is inside."""
    path = pathlib.Path(path)
    return str(path.relative_to(TOP)) if TOP in path.parents else str(path)


def crates(top=TOP):
    """The crates of crates.txt by their names, in its order: the heading that each is listed under, and the libraries
    that it uses, of this repository and of the toolchain."""
    found, heading = {}, ''
    for line in read_text(top / 'crates.txt').splitlines()[1:]:
        if line.startswith('# '):
            heading = line[2:].partition(':')[0]
        head, colon, uses = line.partition('#')[0].partition(':')
        if colon:
            name = head.split()[0]
            found[name] = Crate(name, heading, uses.split())
    return found


def crates_below(names, listed):
    """The names of these crates and of all that they use, in the order of crates.txt."""
    found, waiting = set(), list(names)
    while waiting:
        name = waiting.pop()
        if name in listed and name not in found:
            found.add(name)
            waiting += listed[name].uses
    return [name for name in listed if name in found]
