"""The files that follow from the listing: words, addresses, lists, rows, names, and the blocks of their proof."""
import textwrap

NATIVE, TABLE = 'crates/native_interp', 'crates/line_table'
WRITTEN = 'Written by tools/interpreter from crates/native_interp/src/source.'
BLOCK, BLOCKS_IN_FILE = 40, 7
ROWS = {
    'tables': 'the use of registers, the names of addresses, the entry points, and the two tables',
    'routines': 'boot, the stops, the routines, the operands of a row, and EXIT',
    'operations': 'the operations on operands, the end of a row, the step, and the tests of the status',
    'flow': 'branches, the stacks and RAND',
    'copy': 'MOVE, ALL and BACK',
}
CONSTANT = {'tables': 'TABLE', 'routines': 'ROUTINE', 'operations': 'OPERATION', 'flow': 'FLOW', 'copy': 'COPY'}


def chunks(items, size):
    return [items[at:at + size] for at in range(0, len(items), size)]


def words_file(listing):
    """INTERP."""
    lines = [
        f'// {WRITTEN}',
        '//! The interpreter\'s words.', '',
        'ghost use Rattle.std.specs.Prelude.{◌≡◌};', 'ghost use Rattle.native_interp.specs.Words as spec;', '',
        '/// The words of the interpreter from `>2000` up, in the order of its source.',
        f'pub const INTERP: [u16; {len(listing.words)}] = [',
    ]
    for part in listing.parts:
        if part.list != '-':
            lines.append(f'    // {part.heading}')
            lines += ['    ' + ' '.join(f'0x{word:04X},' for word in some) for some in chunks(part.words, 12)]
    lines += ['];', '', '/// The words of the interpreter from `>2000` up.',
              'pub fn interpreter_words() -> &\'static [u16]',
              '    ensures { result.now ≡ spec.words }', '{', '    &INTERP', '}', '']
    return '\n'.join(lines)


def addresses_file(listing):
    """A constant for each label."""
    constants = [
        ('WORKSPACE', 'u16', 0x83E0, 'The interpreter\'s workspace: the address of its register 0.'),
        ('BEHIND', 'u16', listing.behind, 'The address after the interpreter\'s last word.'),
    ] + [(part.label, 'u16', part.place, part.documentation) for part in listing.parts]
    lines = [f'// {WRITTEN}',
             '//! Addresses in the interpreter. Profile: where the interpreter and its workspace stand.']
    lines += ['', '/// How many words the interpreter has.', f'pub const WORD_COUNT: usize = {len(listing.words)};']
    for name, kind, value, about in constants:
        lines.append('')
        lines += textwrap.wrap(about, 116, initial_indent='/// ', subsequent_indent='/// ')
        lines.append(f'pub const {name}: {kind} = 0x{value:04X};')
    return '\n'.join(lines) + '\n'


def list_file(group):
    """The lists of one file of specs, each with its lines of the source."""
    lines = [f'-- {WRITTEN}', f'-- {group.heading}', 'use Rattle.std.specs.Prelude.{ℕ, List, [], ◌∷◌}']
    for part in group.parts:
        if part.list == '-':
            continue
        lines += ['', f'-- >{part.place:04X}: {part.heading}']
        lines += [f'--     {line.text}' for line in part.lines]
        lines += [f'abbrev pub {part.list} : List ℕ', f'{part.list} =']
        rows = [' ∷ '.join(f'0x{word:04X}' for word in some) for some in chunks(part.words, 8)]
        lines += [f'    {row} ∷' for row in rows[:-1]] + [f'    {rows[-1]} ∷ []']
    return '\n'.join(lines) + '\n'


def filled(items):
    """Items in lines of at most 116 columns, behind four blanks."""
    lines = ['']
    for item in items:
        if lines[-1] and len(lines[-1]) + 1 + len(item) > 112:
            lines.append('')
        lines[-1] += (' ' if lines[-1] else '') + item
    return ['    ' + line for line in lines]


def all_words_file(listing):
    """The parts with their addresses, and all words."""
    parts = [part for part in listing.parts if part.list != '-']
    lines = [f'-- {WRITTEN}',
             '-- The words of the interpreter from >2000 up, part by part in the order of its source.',
             'use Rattle.std.specs.Prelude.{ℕ, ◌-◌, ◌/◌, List, [], ◌∷◌, ◌++◌, flat_map, slice_index}',
             'use Rattle.native_interp.specs.declared.addresses.TheConstants.{']
    lines += [f'  {part.label},' for part in parts] + ['}']
    lines += [f'use Rattle.native_interp.specs.{group.file}Words as {group.prefix}' for group in listing.groups]
    lines += ['', '-- the address of the first word', 'abbrev pub origin : ℕ', 'origin = ORIGIN']
    for group in listing.groups:
        items = [f'({part.label}, {group.prefix}.{part.list}) ∷' for part in group.parts if part.list != '-'] + ['[]']
        lines += ['', f'-- {group.about}', f'abbrev pub {group.name} : List (ℕ × List ℕ)', f'{group.name} =']
        lines += filled(items)
    names = [group.name for group in listing.groups]
    joined = ' ++ ('.join(names[:-1]) + f' ++ {names[-1]}' + ')' * (len(names) - 2)
    lines += [
        '', '-- every part with its address', 'abbrev pub routines : List (ℕ × List ℕ)', f'routines = {joined}',
        '', '-- all words, one part after the other', 'abbrev pub words : List ℕ',
        'words = flat_map (λ routine. routine.1) routines',
        '', '-- the word at an address, whose lowest bit is dropped', 'abbrev pub word_at : ℕ → ℕ',
        'word_at address = slice_index words ((address - origin) / 2)', '']
    return '\n'.join(lines)


def rows_file(listing, group):
    rows = [line for line in listing.lines if line.part == group]
    lines = [f'// {WRITTEN}', f'//! The rows of the lines of {ROWS[group]}.', '', 'use super::Row;', '',
             '/// A row for each of those lines.', f'pub const {CONSTANT[group]}_ROWS: [Row; {len(rows)}] = [']
    for row in rows:
        words = ', '.join(f'0x{word:04X}' for word in (row.words + [0, 0, 0])[:3])
        lines.append(f'    (0x{row.place:04X}, {len(row.words)}, [{words}]),')
    return '\n'.join(lines + ['];', ''])


def names_file(listing):
    lines = [f'// {WRITTEN}', '//! The names of the source with their values.', '',
             '/// Each label of the source with its value, in the order of their lines.',
             f'pub const NAMES: [(&str, u16); {len(listing.names)}] = [']
    lines += [f'    ("{name}", 0x{value:04X}),' for name, value in listing.names.items()]
    return '\n'.join(lines + ['];', ''])


def blocks(listing):
    """Each block of lines: its first line, how many there are, the names before it, and its own."""
    before_last, found, named = len(listing.lines) - 1, [], 0
    for first in range(0, before_last, BLOCK):
        count = min(BLOCK, before_last - first)
        names = sum(bool(line.label) for line in listing.lines[first:first + count])
        found.append((first, count, named, names))
        named += names
    return found


BLOCK_USES = '''use Rattle.std.proofs.Common.{refl}
use Rattle.expression_defs.specs.Tokens.{token_at, tokens_from}
use Rattle.source_defs.specs.Fields.{in_quotes, fields}
use Rattle.source_defs.specs.Operands.{operands_from}
use Rattle.expression_defs.specs.Symbols.{registers}
use Rattle.instruction_defs.specs.Operations.{mnemonic}
use Rattle.instruction_defs.specs.Forms.{form_of}
use Rattle.instruction_defs.specs.FirstChecks.{first_checks}
use Rattle.instruction_defs.specs.SecondChecks.{second_checks}
use Rattle.asm_defs.specs.Directives.{directive}
use Rattle.asm_defs.specs.Statements.{statement_in}
use Rattle.asm_defs.specs.FirstChecks.{parsed, moved}
use Rattle.asm_defs.specs.SecondChecks.{outcome}
use Rattle.line_table.proofs.Blocks.{Block}'''
OPENED = ('unfolding mnemonic form_of first_checks second_checks token_at tokens_from in_quotes operands_from fields '
          'registers directive statement_in parsed moved outcome')
FILES = ['FirstBlocks', 'SecondBlocks', 'ThirdBlocks']


def shared(found):
    """The blocks of each file."""
    return [found[:BLOCKS_IN_FILE], found[BLOCKS_IN_FILE:2 * BLOCKS_IN_FILE], found[2 * BLOCKS_IN_FILE:]]


def blocks_file(found):
    lines = [f'-- {WRITTEN}', '-- Blocks of the source\'s lines: each line by itself has the outcome of its row.']
    lines += BLOCK_USES.split('\n')
    for first, count, named, names in found:
        name = f'lines_{first:03}'
        lines += ['', f'pub {name} : Block {first} {count} {named} {names}', OPENED, f'{name} = refl']
    return '\n'.join(lines) + '\n'


def counts_file(listing):
    lines, names = len(listing.lines), len(listing.names)
    return '\n'.join([
        f'-- {WRITTEN}', '-- How many lines and names the source has.', 'use Rattle.std.proofs.Common.{ℕ}', '',
        '-- the lines', 'abbrev pub line_count : ℕ', f'line_count = {lines}', '',
        '-- the lines before the last', 'abbrev pub most : ℕ', f'most = {lines - 1}', '',
        '-- the names', 'abbrev pub name_count : ℕ', f'name_count = {names}', ''])


def chain_file(listing):
    found = blocks(listing)
    lines = [f'-- {WRITTEN}', '-- The blocks, one after the other: all lines before the last.',
             'use Rattle.line_table.proofs.Counts.{most, name_count}',
             'use Rattle.line_table.proofs.Fronts.{Front, none_yet, with_block}']
    for file, some in zip(FILES, shared(found)):
        if some:
            names = ', '.join(f'lines_{block[0]:03}' for block in some)
            lines.append(f'use Rattle.line_table.proofs.{file}.{{{names}}}')
    before = 'none_yet'
    for first, count, named, names in found:
        name = f'to_{first + count:03}'
        lines += ['', f'{name} : Front {first + count} {named + names}',
                  f'{name} = with_block {first} {count} {named} {names} {before} lines_{first:03}']
        before = name
    return '\n'.join(lines + ['', '-- all of them', 'pub to_last : Front most name_count', f'to_last = {before}', ''])


def files(listing):
    """Each derived file by its path, with its text."""
    found = {
        f'{NATIVE}/src/words.rt': words_file(listing),
        f'{NATIVE}/src/addresses.rt': addresses_file(listing),
        f'{NATIVE}/specs/Words.antt': all_words_file(listing),
        f'{TABLE}/src/names.rt': names_file(listing),
        f'{TABLE}/proofs/Counts.antt': counts_file(listing),
        f'{TABLE}/proofs/Chain.antt': chain_file(listing),
    }
    found.update({f'{NATIVE}/specs/{group.file}Words.antt': list_file(group) for group in listing.groups})
    found.update({f'{TABLE}/src/rows/{group}.rt': rows_file(listing, group) for group in ROWS})
    for file, some in zip(FILES, shared(blocks(listing))):
        found[f'{TABLE}/proofs/{file}.antt'] = blocks_file(some)
    return found
