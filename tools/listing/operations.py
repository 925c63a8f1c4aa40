"""Each operation of GPL with all that stands of it, at one place."""
import re

from lib.command import Stopped
from lib.repository import TOP, read_text

from . import pieces


STEP, ARITHMETIC = (f'crates/gpl_step_defs/specs/{it}.antt' for it in ('Step', 'Arithmetic'))
ROUTINES = ['WHERE', 'SEEK', 'FETCH', 'ADDR', 'ASHORT', 'APTR', 'INDEX', 'ASPACE', 'LOAD', 'LDATA', 'STREAM', 'STORE',
            'SDATA', 'SREG', 'COUNT']
TAILS = ['STO', 'SHOW', 'GOTO', 'TAKE', 'RESUME', 'CTRUE', 'CFALSE', 'GSTEP', 'GSTOP', 'GEXIT']
ROWS = ['ROW', 'OPSDST', 'OPSVAL', 'WIDE', 'WIDDST', 'WIDVAL', 'STROW', 'STDST', 'OPSTWO', 'OPVAL', 'GO']
STEPS = ['GBOOT', 'GSTEP', 'UNKN']
KINDS = {'plain': 'PlainOp', 'byte': 'ByteOp', 'go': 'GoOp', 'one': 'OneName', 'two': 'TwoName'}
DEFINED = {'plain': ('plain', STEP), 'byte': ('with_immediate', STEP), 'go': ('jump', STEP), 'one': ('one', STEP),
           'two': ('two', ARITHMETIC)}
ARM = re.compile(r'(?:PlainOp|ByteOp|GoOp|OneName|TwoName)::\w+|::Branch\b|::Move\b')
MOVES = {'GromToMemory': 'from GROM', 'GromIndexedToMemory': 'from GROM with an index', 'MemoryToMemory': 'from memory',
         'GromToRegisters': 'to registers of the video processor'}
SHARED = [('The step and its dispatch', STEPS), ('Operands of a row', ROWS), ('Routines', ROUTINES), ('Ends', TAILS)]


def operations():
    """The operations of the table of codes: their kind, their name, their first code and how many there are."""
    text = read_text(TOP / 'crates/gpl_defs/specs/Codes.antt')
    found = []
    for kind, name, code, count in re.findall(r'^(\w+)_row (\w+) = row (0x\w+) (\d+)', text, re.M):
        if kind == 'branch':
            name = 'BS' if name == 'true' else 'BR'
        found.append((kind, name, int(code, 16), int(count)))
    return sorted(found, key=lambda it: it[2])


def bytes_of(code, count):
    if count == 1:
        return f'`>{code:02X}`'
    return f'`>{code:02X}` to `>{code + count - 1:02X}`'


def equation(path, start):
    """The equation of a definition that begins so, in one line."""
    lines = read_text(TOP / path).split('\n')
    at = next(at for at, line in enumerate(lines) if line.startswith(start))
    text = lines[at]
    while at + 1 < len(lines) and lines[at + 1].startswith('    '):
        at += 1
        text += ' ' + lines[at].strip()
    return text


def home(word):
    """The file of the step's definitions that defines a word."""
    for path in sorted((TOP / 'crates/gpl_step_defs/specs').glob('*.antt')):
        if re.search(rf'^(?:abbrev pub |unfoldable pub |pub |abbrev ){word} :', read_text(path), re.M):
            return str(path.relative_to(TOP))
    return None


def definition(kind, name):
    if kind == 'branch':
        path, text = STEP, equation(STEP, 'changes_of (Branch')
    elif kind == 'move':
        path, text = STEP, equation(STEP, 'changes_of (Move')
    else:
        function, path = DEFINED[kind]
        text = equation(path, f'{function} {name} ')
    lines = [f'- Definition: `{text}`, in {path}.']
    words = [(word, home(word)) for word in dict.fromkeys(re.findall(r'[a-z_]{4,}', text.partition('=')[2]))]
    words = [(word, place) for word, place in words if place and word not in ('state', 'plain')]
    if words:
        homes = ', '.join(f'`{word}` in {place.split("/")[-1]}' for word, place in words)
        lines[0] = f'{lines[0][:-1]}; {homes}.'
    return lines


def own_pieces(found, entry):
    """The pieces of an operation from its entry on, and the tails in which it ends."""
    own, tails, left = [], [], [entry]
    while left:
        label = left.pop(0)
        if label in TAILS:
            tails += [label] if label not in tails else []
            continue
        if label in own or label not in found:
            continue
        own.append(label)
        for end, link in found[label].exits:
            if end in ROUTINES:
                if link:
                    left.append(link)
                if end == 'COUNT':
                    left += [it for it, _ in found[end].exits if it != 'R11']
            elif end not in ('R11', 'R4'):
                left.append(end)
    return sorted(own, key=lambda label: found[label].place), tails


def ends_of(piece):
    names = []
    for end, link in piece.exits:
        label = piece.ends[0] if end == 'R4' else end
        names.append(f'{label} ({link})' if end in ROUTINES and link else label)
    return ', '.join(dict.fromkeys(names))


def piece_table(found, labels):
    rows = ['| Piece | Address | Most | Ways | Ends | Function |', '|---|---|---|---|---|---|']
    for label in labels:
        piece = found[label]
        rows.append(f'| {label} | `>{piece.place:04X}` | {piece.most} | {len(piece.ways)} | {ends_of(piece)} | '
                    f'`{piece.function}`, {piece.file} |')
    return rows


def words_table(found, labels):
    lines = {line.place: line for label in labels for line in found[label].lines}
    return ['```'] + [f'{at:04X}  {" ".join(f"{word:04X}" for word in line.words):<14}  {line.text}'
                      for at, line in sorted(lines.items())] + ['```']


def family(crate):
    """The function of a family's crate that runs an operation from its dispatch, and the test of the family."""
    path = TOP / f'crates/{crate}/src/family.rt'
    runs = re.findall(r'^pub fn (run_\w+)<[^{]*\{ AtDispatch (?:family\.)?(is_\w+)', read_text(path), re.M)
    return *runs[-1], str(path.relative_to(TOP))


class Edit:
    """A wrong body that the prover refuses: the line that it turns, and the function in which that stands."""

    def __init__(self, path):
        self.path = path
        self.crate = path.parts[-3] if path.parts[-2] == 'must-fail' else path.parts[-2]
        text = read_text(path)
        self.file = re.search(r'^file: (.*)$', text, re.M).group(1)
        self.old, new = (re.search(rf'^{it}: (.*)$', text, re.M).group(1).strip() for it in ('old', 'new'))
        # An open line goes on as it did, and so do the arms at its end.
        kept = ARM.findall(new.rpartition(',')[2]) if new.endswith('=>') else []
        self.arms = set(ARM.findall(self.old)) - set(kept)
        source = read_text(TOP / 'crates' / self.crate / self.file).split('\n')
        at = next((at for at, line in enumerate(source) if self.old in line), None)
        if at is None:
            raise SystemExit(f'tools/interpreter: {path} turns a line that is not there')
        before = [re.match(r'(?:pub )?fn (\w+)', line) for line in source[:at + 1]]
        self.function = next((it.group(1) for it in reversed(before) if it), None)

    @property
    def name(self):
        return str(self.path.relative_to(TOP))


def edits():
    paths = sorted((TOP / 'crates').glob('sim_*/must-fail/*.edit')) + sorted((TOP / 'more-edits').glob('sim_*/*.edit'))
    for folder in ('crates/native_interp/must-fail', 'more-edits/native_interp'):
        paths += sorted((TOP / folder).glob('*.edit'))
    return [Edit(path) for path in paths]


def edits_of(listing, found, labels, kind, name, every):
    """Those that turn a line of the operation's pieces, its words, or an arm of its name."""
    functions = {(found[label].crate, found[label].function) for label in labels}
    lists = [part for part in listing.parts if part.label in labels]
    arm = f'{KINDS[kind]}::{name}' if kind in KINDS else '::Branch' if kind == 'branch' else '::Move'
    kept = []
    for edit in every:
        if edit.crate == 'native_interp':
            if any(edit.old in ' '.join(f'0x{word:04X},' for word in part.words) for part in lists):
                kept.append(edit)
        elif (edit.crate, edit.function) in functions or arm in edit.arms:
            kept.append(edit)
    return kept


def edits_beside(crate, kept, every):
    """Those of a family that turn no piece and name no operation."""
    return [edit for edit in every if edit.crate == crate and edit not in kept
            and not re.search(r'(Op|Name)::\w+', edit.old) and not edit.file.endswith('pieces.rt')]


def section(listing, found, kind, name, code, count, every):
    moves = kind == 'move'
    row = kind in ('one', 'two')
    entry_table = listing.label_at(listing.words[(listing.names['TABLE'] - listing.origin) // 2 + code])
    entry = entry_table
    if row:
        entry = listing.label_at(listing.words[(listing.names['OPTAB'] - listing.origin + code - 0x80) // 2])
    labels, tails = own_pieces(found, entry)
    lines = ['', f'## {"MOVE " + MOVES[name] if moves else name}', '', f'- Code bytes: {bytes_of(code, count)}.']
    lines += definition(kind, name)
    if row:
        lines.append(f'- Entry: TABLE leads to {entry_table}, which finds the operands and loads what the row reads of '
                     f'them, and OPTAB to {entry} at `>{found[entry].place:04X}`.')
    else:
        lines.append(f'- Entry: TABLE leads to {entry} at `>{found[entry].place:04X}`.')
    if tails:
        lines.append(f'- It ends by {", ".join(tails)}.')
    run, test, path = family(found[entry].crate)
    lines.append(f'- Proved by the contract of `{run}`, in {path}: from the dispatch of an operation of `{test}`')
    lines.append('  it runs to the end of the step and leaves what the definition says (`Turned`).')
    own = edits_of(listing, found, labels, kind, name, every)
    if own:
        lines.append('- Refused: ' + ', '.join(edit.name for edit in own) + '.')
    beside = edits_beside(found[entry].crate, own, every)
    if beside:
        lines.append('- Refused of its family: ' + ', '.join(edit.name for edit in beside) + '.')
    if moves and name != 'GromToMemory':
        return lines + ['', 'Its words and pieces are those of MOVE from GROM, above.']
    return lines + [''] + words_table(found, labels) + [''] + piece_table(found, labels)


def shared(found, every):
    """The sections of what the operations share."""
    lines = []
    for about, labels in SHARED:
        labels = [label for label in labels if label in found and not (about == 'Ends' and label in STEPS)]
        lines += ['', f'## {about}', '', 'Shared by the operations.', ''] + words_table(found, labels) + ['']
        lines += piece_table(found, labels)
        functions = {(found[label].crate, found[label].function) for label in labels}
        own = [edit for edit in every if (edit.crate, edit.function) in functions]
        if own:
            lines += ['', 'Refused: ' + ', '.join(edit.name for edit in own) + '.']
    return lines


def pages(listing, names):
    """The lines of the sections of these operations, in the order of their codes; `shared` is what they share, and
    `every` all of these."""
    rows, wanted = operations(), {name.upper() for name in names}
    known = {row[1] if row[0] != 'move' else 'MOVE' for row in rows}
    wrong = wanted - known - {'SHARED', 'EVERY'}
    if wrong:
        raise Stopped(f'no operation {", ".join(sorted(wrong))}; there are {", ".join(sorted(known))}, shared and every')
    found, refused, lines = pieces.functions(listing), edits(), []
    for kind, name, code, count in rows:
        if wanted & {'MOVE' if kind == 'move' else name, 'EVERY'}:
            lines += section(listing, found, kind, name, code, count, refused)
    if wanted & {'SHARED', 'EVERY'}:
        lines += shared(found, refused)
    return lines[1:]


def all_pieces(listing):
    """The table of all pieces, in the order of their addresses."""
    found = pieces.functions(listing)
    return piece_table(found, sorted(found, key=lambda label: found[label].place))
