"""Lists of names that are passed on, and the names that the entries import. Labels of the interpreter and operations of
GPL are added where they are used, and taken out where they are none any more; the other names are written by hand."""
import re

from lib.repository import TOP, read_text

ADDRESSES = 'native_interp.specs.declared.addresses.TheConstants'
ENUMS = ['PlainOp', 'ByteOp', 'GoOp', 'OneName', 'TwoName']
ENTRIES = 'native_interp.specs.Entries'
# the lists, each with the one that it has labels and operations of; the last has them of their own modules
LISTS = {
    'sim_rows.proofs.Common': 'sim_rows.specs.Prelude',
    'sim_rows.specs.Prelude': 'sim_view.specs.Prelude',
    'sim_view.specs.Prelude': None,
}
IMPORT = re.compile(r'^((?:pub |unfoldable |ghost )*use )Rattle\.([\w.]+)\.\{([^{}]*)\}(;?)\n', re.M)
WIDTH = 120


def path_of(module):
    return f'crates/{module.replace(".", "/")}.antt'


def names_in(text):
    """The names between braces."""
    return [name.strip() for name in text.split(',') if name.strip()]


def imports(text):
    """What a text imports: pairs of a module and a name of it."""
    return [(found[2], name) for found in IMPORT.finditer(text) for name in names_in(found[3])]


def modules(listing):
    """The names that labels and operations have, by the modules that declare them."""
    found = {ADDRESSES: ['WORKSPACE', 'BEHIND'] + [part.label for part in listing.parts]}
    text = read_text(TOP / 'crates/gpl_defs/src/instruction.rt')
    for enum in ENUMS:
        body = re.search(rf'pub enum {enum} {{\n(.*?)\n}}', text, re.S)[1]
        found[f'gpl_defs.specs.declared.instruction.{enum}.TheVariants'] = re.findall(r'^    (\w+),$', body, re.M)
    return found


def with_name(text, module, name):
    """A text that imports one more name of a module: in the last of the module's lines if it has room, or else after
    it."""
    last = [found for found in IMPORT.finditer(text) if found[2] == module and 'unfoldable' not in found[1]][-1]
    if '\n' in last[3]:
        return f'{text[:last.end(3)]}  {name},\n{text[last.end(3):]}'
    if len(last[0]) + len(name) <= WIDTH - 1:
        return f'{text[:last.end(3)]}, {name}{text[last.end(3):]}'
    return f'{text[:last.end()]}{last[1]}Rattle.{module}.{{{name}}}{last[4]}\n{text[last.end():]}'


def without_name(text, module, name):
    """A text that doesn't import a name of a module."""
    def kept(found):
        names = names_in(found[3])
        if found[2] != module or name not in names:
            return found[0]
        names.remove(name)
        inside = '\n' + ''.join(f'  {it},\n' for it in names) if '\n' in found[3] else ', '.join(names)
        return f'{found[1]}Rattle.{module}.{{{inside}}}{found[4]}\n' if names else ''
    return IMPORT.sub(kept, text)


def home(name, declared):
    """The module of a label or an operation; a name of both is the label's."""
    return next((module for module, names in declared.items() if name in names), None)


def lists_of(lists, texts, declared):
    """The lists, in the order of LISTS, with the labels and operations that the texts import from them."""
    found, gone = dict(lists), set()
    for module in reversed(lists):
        for source, name in imports(lists[module]):
            if source in declared and name not in declared[source] or source == LISTS[module] and name in gone:
                found[module] = without_name(found[module], source, name)
                gone.add(name)
    wanted = {pair for text in texts for pair in imports(text)}
    for module, source in LISTS.items():
        passed = {name for _, name in imports(found[module])}
        for name in sorted(name for other, name in wanted if other == module and name not in passed):
            if home(name, declared):
                found[module] = with_name(found[module], source or home(name, declared), name)
                wanted.add((source, name))
    return found


def entries_of(text, declared):
    """The entries, which import the labels and operations that they name and no others that are none."""
    for module, name in imports(text):
        if module in declared and name not in declared[module]:
            text = without_name(text, module, name)
    named = set(re.findall(r'\b[A-Z]\w*', re.sub('--.*', '', IMPORT.sub('', text))))
    for name in sorted(named - {name for _, name in imports(text)}):
        if home(name, declared):
            text = with_name(text, home(name, declared), name)
    return text


def files(listing):
    """The lists and the entries by their paths."""
    declared = modules(listing)
    lists = {module: read_text(TOP / path_of(module)) for module in LISTS}
    texts = [read_text(path) for end in ('antt', 'rt') for path in sorted((TOP / 'crates').glob(f'sim_*/*/**/*.{end}'))
             if 'out' not in path.relative_to(TOP).parts and str(path.relative_to(TOP)) not in map(path_of, LISTS)]
    found = {path_of(module): text for module, text in lists_of(lists, texts, declared).items()}
    return {**found, path_of(ENTRIES): entries_of(read_text(TOP / path_of(ENTRIES)), declared)}
