"""The operations and directives of both languages, read from the definitions."""
import collections
import re
import typing

from expanding.names import BARE_FORMS, FILE_FORMS, FORMS
from lib.repository import TOP, read_text
from listing.operations import operations

# The names by what follows them: operands, nothing but a comment (bare), or the name of a file.
Names = collections.namedtuple('Names', 'operations bare_operations directives bare_directives file_directives')


def definition(crate, file):
    return read_text(TOP / f'crates/{crate}/specs/{file}.antt')


def parted(names, bare) -> typing.Tuple[list, list]:
    """Names in two lists: those that are not bare, and those that are."""
    return sorted(set(names) - set(bare)), sorted(bare)


def directives(crate):
    """The directives of a language by the names that lines have for them."""
    return re.findall(r'\(codes "(\w+)", (\w+)\)', definition(crate, 'Directives'))


def assembler():
    names = re.findall(r'^(\w+)_row .* = row \w+ \(codes "(\w+)"\)', definition('tms_defs', 'Instructions'), re.M)
    valued = re.findall(r'^has_value (\w+) = true', definition('instruction_defs', 'Operands'), re.M)
    words = definition('instruction_defs', 'Operations')
    bare = re.findall(r'is_word text \(codes "(\w+)"\) then Some \(Fixed', words)
    bare += [name for form, name in names if form == 'bare' and name not in valued]
    quiet = re.findall(r'^directive_statement named\.(\w+) texts = Ok', definition('asm_defs', 'Statements'), re.M)
    named = directives('asm_defs')
    copying = re.findall(r'is_word \(part line operation\) \(codes "(\w+)"\)', definition('shelf_defs', 'CopyLines'))
    return Names(*parted([name for _, name in names], bare),
                 *parted([name for name, _ in named], [name for name, kind in named if kind in quiet]), copying)


def gpl():
    rows = {name: kind for kind, name, _, _ in operations()}
    narrow = re.findall(r'^has_words (\w+) = false', definition('gpl_defs', 'Valid'), re.M)
    moves = re.findall(r'^name_of Move = codes "(\w+)"', definition('gpl_source_defs', 'Mnemonics'), re.M)
    words = ['D' + name for name, kind in rows.items() if kind in ('one', 'two') and name not in narrow]
    names = [name for name, kind in rows.items() if kind != 'move'] + words + moves
    bare = [name for name, kind in rows.items() if kind == 'plain']
    return Names(*parted(names, bare), *parted([name for name, _ in directives('gpl_source_defs')], []), [])


def with_forms(found):
    """The names of GPL sources with those of the forms that are expanded, as directives."""
    return found._replace(directives=sorted(FORMS - FILE_FORMS - BARE_FORMS | set(found.directives)),
                          bare_directives=sorted(BARE_FORMS | set(found.bare_directives)),
                          file_directives=sorted(FILE_FORMS | set(found.file_directives)))
