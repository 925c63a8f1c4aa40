"""The assembler by the Editor/Assembler manual: the first checks of all lines in order, which find each line's place
and names, then the second checks, which find the values and place the words."""
import typing

import tms_operands
import tms_text
from tms_text import ABSOLUTE, EXTERNAL, RELOCATABLE, Refused

MOST_NAMES = 256
MOST_WORDS = 32768

# the least and the most operands of a directive; those that have none ignore the rest of the line
COUNTS = {'AORG': (1, 1), 'RORG': (0, 1), 'DORG': (1, 1), 'BSS': (1, 1), 'BES': (1, 1), 'EVEN': (0, 0), 'EQU': (1, 1),
          'DATA': (1, None), 'BYTE': (1, None), 'TEXT': (1, 1), 'DEF': (1, None), 'REF': (1, None), 'IDT': (1, 1),
          'TITL': (1, 1), 'PAGE': (0, 0), 'LIST': (0, 0), 'UNL': (0, 0), 'END': (0, 1)}

# a line as the second checks see it
Kept = typing.NamedTuple('Kept', [('where', object), ('operation', str), ('operands', list), ('kind', str),
                                  ('place', int), ('placed', bool)])


class LineRefused(Exception):
    """A refused line: where it stands and why."""

    def __init__(self, where, why):
        super().__init__(where, why)
        self.where = where
        self.why = why


class Assembly:
    """The lines that the first checks took, with their names and places."""

    def __init__(self):
        self.names = {f'R{number}': (ABSOLUTE, number) for number in range(16)}
        self.kind, self.location, self.placed = RELOCATABLE, 0, True
        self.reached = 0
        self.defs, self.refs = [], []
        self.module_name = ''
        self.kept = []
        self.ended = False

    def take(self, where, line):
        """Takes one line, by the first checks."""
        try:
            found = tms_text.fields(line)
            if found:
                self.checked(where, *found)
        except Refused as why:
            raise LineRefused(where, str(why)) from None

    def checked(self, where, label, operation, field):
        """The first checks of a line from its label on. The label of an origin, BES and EVEN line is the new location,
        that of EQU its value, and every other the line's location."""
        if label in self.names:
            raise Refused('duplicate label')
        if not operation:
            self.name(label, self.here())
            return
        operands = formed(operation, field, self, label)
        even = operation == 'DATA' or operation in tms_operands.INSTRUCTIONS
        self.location += self.location & 1 if even else 0
        named = self.here()
        moved = self.moved(operation, operands)
        place = self.location
        if moved:
            self.kind, self.location, self.placed = moved[:3]
            self.overflow()
            if operation not in ('BSS', 'DATA', 'BYTE', 'TEXT') and operation in COUNTS:
                named = self.here()
        if operation in OTHERS:
            named = OTHERS[operation](self, label, operands, named)
        self.name(label, named)
        if operation not in UNSEEN:
            self.kept.append(Kept(where, operation, operands, self.kind, place, self.placed))

    def here(self):
        """The location as a value; at the end of memory it is 0."""
        return self.kind, self.location & 0xFFFF

    def name(self, label, found):
        if label:
            self.names[label] = found

    def overflow(self):
        if self.location > (65535 if self.kind == RELOCATABLE else 65536):
            raise Refused('out of room')
        if self.kind == RELOCATABLE:
            self.reached = max(self.reached, self.location)

    def number(self, operand):
        """An absolute value that moves the location."""
        return tms_operands.absolute(operand, self.names, self.here())

    def moved(self, operation, operands):
        """The kind, location and placing after a line that can move the location, or None."""
        if operation in ('AORG', 'DORG'):
            return ABSOLUTE, self.number(operands[0]), operation == 'AORG'
        if operation == 'RORG':
            if not operands:
                return RELOCATABLE, self.reached, True
            kind, number = tms_text.value(operands[0], self.names, self.here())
            if kind == EXTERNAL:
                raise Refused('bad relocation')
            return RELOCATABLE, number, True
        if operation in tms_operands.INSTRUCTIONS:
            grown = tms_operands.size(operation, operands)
        elif operation in GROWN:
            grown = GROWN[operation](self, operands)
        else:
            return None
        return self.kind, self.location + grown, self.placed


def formed(operation, field, assembly, label):
    """The first checks on operation, operand count, operand form and REF names."""
    if operation in tms_operands.INSTRUCTIONS:
        return tms_operands.formed(operation, tms_text.operands_of(field))
    if operation not in COUNTS:
        raise Refused('unknown operation')
    least, most = COUNTS[operation]
    if most == 0:
        return []
    operands = tms_text.operands_of(field)
    if len(operands) < least or most and len(operands) > most:
        raise Refused('operand count')
    if '' in operands:
        raise Refused('bad operand')
    if operation == 'TEXT':
        operands = [tms_text.quoted_text(operands[0])]
    elif operation in ('DEF', 'REF'):
        operands = [tms_text.name_of(operand) for operand in operands]
    if None in operands:
        raise Refused('bad operand')
    if operation == 'REF':
        there = {*assembly.names, label}
        for name in operands:
            if name in there:
                raise Refused('duplicate label')
            there.add(name)
    return operands


# how many bytes a line adds to the location
GROWN = {
    'BSS': lambda assembly, operands: assembly.number(operands[0]),
    'BES': lambda assembly, operands: assembly.number(operands[0]),
    'EVEN': lambda assembly, operands: assembly.location & 1,
    'DATA': lambda assembly, operands: 2 * len(operands),
    'BYTE': lambda assembly, operands: len(operands),
    'TEXT': lambda assembly, operands: len(operands[0]),
}


def equ(assembly, label, operands, named):
    found = tms_text.value(operands[0], assembly.names, named)
    if found[0] == EXTERNAL:
        raise Refused('bad relocation')
    if not label:
        raise Refused('bad directive')
    return found


def idt(assembly, label, operands, named):
    """The module's name; a later one replaces it."""
    text = tms_text.quoted_text(operands[0])
    if text is None or len(text) > 8 or not all(' ' <= character <= '~' for character in text):
        raise Refused('bad directive')
    assembly.module_name = text
    return named


def titl(assembly, label, operands, named):
    if tms_text.quoted_text(operands[0]) is None:
        raise Refused('bad directive')
    return named


def ref(assembly, label, operands, named):
    assembly.refs += operands
    if len(assembly.refs) > MOST_NAMES:
        raise Refused('out of room')
    assembly.names.update((name, (EXTERNAL, name)) for name in operands)
    return named


def definition(assembly, label, operands, named):
    assembly.defs += operands
    if len(assembly.defs) > MOST_NAMES:
        raise Refused('out of room')
    if len(set(assembly.defs)) < len(assembly.defs):
        raise Refused('bad directive')
    return named


def end(assembly, label, operands, named):
    assembly.ended = True
    return named


OTHERS = {'EQU': equ, 'IDT': idt, 'TITL': titl, 'REF': ref, 'DEF': definition, 'END': end}
# what the second checks do not see
UNSEEN = {'AORG', 'RORG', 'DORG', 'BSS', 'BES', 'EVEN', 'EQU', 'IDT', 'TITL', 'REF', 'PAGE', 'LIST', 'UNL'}
