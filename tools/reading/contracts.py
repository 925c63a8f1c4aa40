"""The public calls of the crates with their contracts, and the definitions that these cite."""
import functools
import re
import typing

from lib.repository import TOP, read_text, shown
from reading.files import file_of

CALL = re.compile(r'( *)(?:pub )?(?:const )?fn (\w+)')
TRAIT = re.compile(r'pub trait (\w+)')
IMPL = re.compile(r'impl(?:<.*?>)? (?:(\w[\w:]*)(?:<.*?>)? for )?(\w+)')
USE = re.compile(r'^(?:ghost |pub )?use Rattle\.(\w+)\.specs\.([\w.]+?)(?:\.\{(.*?)\}| as (\w+));?$', re.M | re.S)
# the line on which a name is defined, in specs/ or in src/
MADE = r'^ *(?:abbrev |unfoldable )?(?:pub )?(?:record |data |enum |struct |const |trait )?{0}\b(?: .*)?(?: :|:|\{{)'
CLAUSES = ('requires', 'ensures')
# the libraries of the toolchain, whose definitions are not in this repository
KIT = ('std', 'core', 'alloc')


class Call(typing.NamedTuple):
    """A public function, or a function of a public trait or of a trait's implementation."""
    crate: str
    name: str       # with its type, as `Session::run`
    place: str      # its file and line
    docs: list      # the lines of its comment
    text: list      # its signature and its contract, line by line
    cited: list     # the definitions that the contract cites: their names, and their files and lines


def signature(lines, at, indent):
    """The lines of a function from this one on up to its body."""
    found, depth = [], 0
    for line in lines[at:]:
        if line == f'{indent}{{':
            break
        depth += sum(map(line.count, '({[')) - sum(map(line.count, ')}]'))
        found.append(line[len(indent):])
        if depth == 0 and line.endswith(';'):
            break
        if depth == 1 and line.endswith(' {') and not line.strip().startswith(CLAUSES):
            found[-1] = found[-1][:-2]
            break
    return found


def comment(lines, at):
    """The lines of the comment of the function at a line."""
    found = []
    for line in reversed(lines[:at]):
        line = line.strip()
        if line.startswith('///'):
            found.append(line[4:])
        elif not line.startswith('#['):
            break
    return found[::-1]


def imports(text):
    """What a file may cite: the crate and module of each definition by its name, and of each module by its alias."""
    names, aliases = {}, {}
    for crate, module, cited_names, alias in USE.findall(text):
        if crate in KIT:
            continue
        if alias:
            aliases[alias] = (crate, module)
        for own, name in re.findall(r'(\w+)(?: as (\w+))?', cited_names):
            names[name or own] = (crate, module, own)
    return names, aliases


@functools.lru_cache(None)
def place_of(crate, module, name):
    """The file and line of a definition, or of the one that a module hands on; None if it is not in this repository."""
    path = file_of(crate, module)
    if not path:
        return None
    text = read_text(path)
    made = re.search(MADE.format(name), text, re.M)
    if made:
        return f'{shown(path)}:{text.count(chr(10), 0, made.start()) + 1}'
    return next((place_of(*there) for own, there in imports(text)[0].items() if own == name), shown(path))


def cited(text, known, aliases):
    """The definitions that a contract cites, in its order."""
    at = min((text.find(word) for word in CLAUSES if word in text), default=len(text))
    found = {}
    for alias, name in re.findall(r'(?:\b(\w+)\.)?\b([A-Za-z_]\w*)', text[at:]):
        if alias in aliases:
            found[f'{alias}.{name}'] = place_of(*aliases[alias], name)
        elif name in known:
            own = known[name][2]
            found[name if own == name else f'{name} (there {own})'] = place_of(*known[name])
    return [(name, place) for name, place in found.items() if place]


def calls_of_file(crate, path):
    """The public calls of a file."""
    text = read_text(path)
    lines, owner, is_trait = text.split('\n'), '', False
    known, aliases = imports(text)
    for at, line in enumerate(lines):
        trait, impl, call = TRAIT.match(line), IMPL.match(line), CALL.match(line)
        if trait or impl:
            owner, is_trait = (trait[1], True) if trait else (impl[2], bool(impl[1]))
        elif line == '}':
            owner, is_trait = '', False
        if call and (is_trait or ' pub ' in f' {line}'):
            made, name = signature(lines, at, call[1]), f'{owner}::{call[2]}' if owner else call[2]
            yield Call(crate, name, f'{shown(path)}:{at + 1}', comment(lines, at), made,
                       cited('\n'.join(made), known, aliases))


def calls(crate):
    """The public calls of a crate, file by file."""
    for path in sorted((TOP / 'crates' / crate / 'src').rglob('*.rt')):
        yield from calls_of_file(crate, path)
