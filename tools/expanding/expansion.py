"""How a source is expanded: its lines are taken one after the other, and those that have a form are replaced."""
from expanding import conditions
from expanding.cells import Block
from expanding.expression import REGISTERS, Unvalued, value
from expanding.files import MOST_BYTES, MOST_COPIES, TOO_DEEP, data_of, name_in
from expanding.lines import are_cut_short, changed, comment_of, label_of, operation_of, parts_of, pieces
from expanding.local_labels import LABEL, MARK, Labels, Scope
from expanding.macros import NAME, Macro, parameters_of, stranger
from expanding.names import FORMS
from expanding.places import Refused
from expanding.refusals import Refusals, label_left, leave_out
from expanding.source import of_file, of_use
from lib.command import MOST_BYTES as MOST_TEXT

# the most uses of macros, and how many may be in one another
MOST_USES, MOST_NESTED = 65_536, 16
# what a line without a label begins with
UNLABELLED = frozenset(('', ' ', '\t', '*', '\r'))
# the bytes of a BYTE line
ROW = 16


class Expansion:
    """A source while it is expanded: the lines that are made, each with its place. The last of so many refusals ends
    it."""

    def __init__(self, folder, names, words, most=1):
        self.folder, self.names, self.words, self.macros = folder, {**REGISTERS, **names}, words, {}
        self.labels, self.scope = Labels([]), Scope('')
        # the refusals, and the lines that are left out for them: their numbers and the author's texts
        self.refusals, self.left_out = Refusals(most, self.labels), []
        # of each line its text, its place, and the author's line that it comes from
        self.texts, self.places, self.written, self.size = [], [], [], 0
        self.files, self.copies = [], 0
        # the uses of macros: the name, the place and the author's line
        self.uses = []
        self.block, self.cells = None, []
        # of each operation that nothing defines the first line, as place and text
        self.unknown = {}
        # the lines in which END was
        self.ended = None
        # what takes a line that has a form or uses a macro, by its operation; and the operations that say no more
        self.forms = {name: getattr(self, f'take_{name.lower()}') for name in FORMS}
        self.plain = words.known - {'EQU', 'END'} | {''}

    def take(self, source):
        """Takes lines up to END or to the end of the source, each by its form if it has one."""
        for text in source:
            number = source.number
            try:
                operation = operation_of(text)
                form = self.forms.get(operation)
                if form:
                    form(source, parts_of(text))
                else:
                    self.take_line(source, text, operation)
            except (Refused, Unvalued) as error:
                self.refusals.note(error if isinstance(error, Refused) else source.refused(str(error)))
                self.write(source, label_left(text, self.words.known), number)
                self.left_out.append((len(self.texts), text))
            if self.ended:
                return
        if source.open:
            self.refusals.note(conditions.is_open(source))

    def note(self, source, cause):
        """Notes the refusal of a line whose form goes on with the lines after it."""
        self.refusals.note(source.refused(cause))

    def write(self, source, text, number=None):
        """Adds a line to those that are made, for the line that was taken last, or for another one."""
        self.size += len(text) + 1
        if self.size > MOST_TEXT:
            raise source.refused(f'too large: with this line the source has more than {MOST_TEXT:,} bytes')
        self.texts.append(text)
        self.places.append(source.place_of(number) if number else source.place)
        self.written.append(source.texts[number - 1] if number else source.text)

    def take_line(self, source, text, operation):
        """A line that has no form, but perhaps local labels."""
        if '.' in text and text[0] != '*':
            text = self.with_marks(source, text, operation)
        elif text[:1] not in UNLABELLED:
            self.label(source, label_of(text), operation)
        if operation not in self.plain:
            self.note_line(source, text, operation)
        self.write(source, text)

    def note_line(self, source, text, operation):
        """Notes what a line says of a name, of the end, or of an operation that is not known."""
        if operation == 'EQU':
            self.note_value(parts_of(text))
        elif operation == 'END':
            self.ended = source
        else:
            self.unknown.setdefault(operation, (source.place, source.text))

    def with_marks(self, source, text, operation):
        """A line with the characters that stand for local labels."""
        label, gap, written, second_gap, operands, rest, end = parts_of(text)
        if text[0] not in UNLABELLED:
            label = self.label(source, label, operation)
        if operation not in self.words.bare:
            operands = self.marked(source, operands)
        return f'{label}{gap}{written}{second_gap}{operands}{rest}{end}'

    def marked(self, source, operands):
        """Operands with the characters that stand for local labels."""
        return self.labels.marked(operands, source.scope or self.scope, source) if '.' in operands else operands

    def label(self, source, label, operation=''):
        """A label; the character that stands for it, if it is local."""
        if label[0] == '.' and LABEL.fullmatch(label):
            return self.labels.local(source.scope or self.scope, label, source).put(source)
        if not label.isascii() and MARK.fullmatch(label):
            return self.labels.of(label).put(source)
        if operation != 'EQU' and not source.scope:
            self.scope = Scope(label.upper())
        return label

    def write_label(self, source, parts):
        """The label of a line that is replaced, on a line of its own."""
        if parts.label:
            self.write(source, self.label(source, parts.label) + parts.end)

    def note_value(self, parts):
        """Notes the value of a name, if it is known here: the first one counts, as the program refuses another."""
        try:
            self.names.setdefault(parts.label.upper(), value(parts.operands, self.names))
        except Unvalued:
            pass

    def file(self, source, operands):
        """The name and the bytes of the file that operands name."""
        name = name_in(operands)
        if not name:
            raise source.refused('bad directive: the operand is the name of a file in quotes, without a path')
        data = data_of(self.folder, name)
        if data is None:
            raise source.refused(f'missing {name}')
        if len(data) > MOST_BYTES:
            raise source.refused(f'too large: {name} has more than {MOST_BYTES:,} bytes')
        self.files.append(name)
        return name, data

    def unlabelled(self, source, parts):
        """Refuses a form that has a label but may have none."""
        if parts.label:
            self.note(source, f'bad directive: {parts.operation.upper()} has no label')

    def take_copy(self, source, parts):
        self.unlabelled(source, parts)
        if source.depth >= TOO_DEEP:
            raise source.refused('copy too deep')
        if self.copies >= MOST_COPIES:
            raise source.refused('too many copies')
        self.copies += 1
        name, data = self.file(source, parts.operands)
        self.write(source, comment_of(parts))
        self.take(of_file(name, data, source.depth + 1, source.scope))

    def take_bin(self, source, parts):
        _, data = self.file(source, parts.operands)
        self.write_label(source, parts)
        self.write(source, comment_of(parts))
        for at in range(0, len(data), ROW):
            row = ','.join(f'>{byte:02X}' for byte in data[at:at + ROW])
            self.write(source, f'       BYTE {row}{parts.end}')

    def take_macro(self, source, parts):
        name, first = parts.label.upper(), source.number + 1
        wrong = self.wrong_name(name)
        if wrong:
            self.note(source, wrong)
        if name in self.unknown:
            place, text = self.unknown.pop(name)
            where = f'{source.place.file}:{source.number}'
            self.refusals.note(Refused(place, f'unknown operation: {name} is a macro from {where} on', text))
            leave_out(self, place, text)
        try:
            parameters = parameters_of(parts.operands)
        except Unvalued as error:
            self.note(source, str(error))
            parameters = None
        texts = self.lines_of(source, name, parameters)
        if not wrong and parameters is not None:
            self.macros[name] = Macro(name, parameters, texts, source.place.file, first)
            self.forms[name] = self.take_use

    def wrong_name(self, name):
        """Why a macro may not have a name, or None."""
        if not NAME.fullmatch(name):
            return 'bad label: before MACRO stands the name of the macro'
        if name in self.words.known or name in FORMS:
            return f'{name} is an operation or a directive, and no name of a macro'
        if name in self.macros:
            return f'{name} is a macro already: {self.macros[name].file}:{self.macros[name].first - 1}'
        return None

    def lines_of(self, source, name, parameters):
        """The lines of a macro, up to its ENDM."""
        begin, texts = source.number, []
        for text in source:
            operation = operation_of(text)
            if operation == 'ENDM':
                return texts
            if operation == 'MACRO':
                self.note(source, f'MACRO in the macro {name}: ENDM is missing')
                source.number -= 1
                return texts
            unknown = stranger(text, parameters) if parameters is not None else None
            if unknown:
                self.note(source, f'{unknown} names no parameter of {name}')
            texts.append(text)
        raise source.refused('this MACRO has no ENDM', begin)

    def take_endm(self, source, parts):
        raise source.refused('ENDM without MACRO')

    def take_use(self, source, parts):
        macro, place = self.macros[parts.operation.upper()], source.place
        if any(within.macro == macro.name for within in place.within):
            raise source.refused(f'{macro.name} uses itself')
        if len(place.within) >= MOST_NESTED:
            raise source.refused('macros too deep')
        if len(self.uses) >= MOST_USES:
            raise source.refused('too many uses of macros')
        self.uses.append((macro.name, place, source.text))
        if macro.parameters and are_cut_short(parts):
            raise source.refused('bad operand: a blank ends the operands; write none before or after a comma')
        self.write_label(source, parts)
        texts = macro.filled(self.marked(source, parts.operands))
        self.write(source, comment_of(parts))
        self.take(of_use(macro, texts, place, source.depth, Scope(macro.name)))

    def take_if(self, source, parts):
        self.unlabelled(source, parts)
        try:
            holds = value(parts.operands, self.names) != 0
        except Unvalued as error:
            self.note(source, str(error))
            holds = True
        conditions.begin(source, holds)

    def take_ifdef(self, source, parts):
        self.unlabelled(source, parts)
        if not NAME.fullmatch(parts.operands):
            self.note(source, 'bad operand: IFDEF takes a name')
        conditions.begin(source, parts.operands.upper() in self.names)

    def take_else(self, source, parts):
        self.unlabelled(source, parts)
        conditions.other(source)

    def take_endif(self, source, parts):
        self.unlabelled(source, parts)
        conditions.end(source)

    def take_cells(self, source, parts):
        self.unlabelled(source, parts)
        # after a refused line no cell is refused: those of this block get any addresses
        self.block = Block(0, 0xFFFF)
        given = [value(text, self.names) for text in pieces(parts.operands)]
        if len(given) != 2:
            raise source.refused('operand count: CELLS takes the first and the last address of a block')
        self.block = Block(*given)
        self.write(source, comment_of(parts))

    def take_cell(self, source, parts):
        if not self.block:
            raise source.refused('CELL without CELLS')
        width = value(parts.operands, self.names)
        at = self.block.taken(width)
        if not parts.label:
            return self.write(source, comment_of(parts))
        self.names.setdefault(parts.label.upper(), at)
        self.cells.append((parts.label.upper(), at, width))
        return self.write(source, changed(parts, parts.label, 'EQU', f'>{at:04X}'))
