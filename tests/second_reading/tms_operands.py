"""The operands of instruction lines, as the Editor/Assembler manual has them: their forms, which the first checks see,
and their values, ranges and words, which the second checks see."""
import tms_table
import tms_text
from tms_text import ABSOLUTE, EXTERNAL, Refused

# the operands that an instruction line has, by its form
ROLES = {'Two': ('general', 'general'), 'Reg': ('general', 'register'), 'Shift': ('register', 'register'),
         'One': ('general',), 'Jump': ('target',), 'Imm': ('register', 'word'), 'Bare': ()}
# instructions whose operands are not those of their form
OWN_ROLES = {**{name: ('displacement',) for name in tms_table.BIT_ROWS}, **{'STWP': ('register',)},
             **{'STST': ('register',)}, **{name: ('word',) for name in tms_table.WORD_ROWS}}
# instructions that stand for a word of another: no operation, and return
WHOLE_WORDS = {'NOP': 0x1000, 'RT': 0x045B}

INSTRUCTIONS = {**{row.name: OWN_ROLES.get(row.name, ROLES[row.form]) for row in tms_table.ROWS.values()},
                **{name: () for name in WHOLE_WORDS}}


def even_quotes(text):
    return text.count("'") % 2 == 0


def first_outside_quotes(text, wanted):
    """The first place of a character outside quotes, or None."""
    inside = False
    for at, character in enumerate(text):
        if character == "'":
            inside = not inside
        elif character == wanted and not inside:
            return at
    return None


def general(text):
    """The form of a general operand: its mode, its expression, and the expression of its index register or None."""
    if text.startswith('@'):
        if text.endswith(')') and even_quotes(text):
            opening = first_outside_quotes(text, '(')
            if opening is not None:
                return 2, text[1:opening], text[opening + 1:-1]
        return 2, text[1:], None
    if text.startswith('*'):
        return (3, text[1:-1], None) if text.endswith('+') else (1, text[1:], None)
    return 0, text, None


def formed(operation, operands):
    """The first checks of an instruction line's operands: the count, and then the form of each. The answer has for each
    operand its role, mode, expression and index."""
    roles = INSTRUCTIONS[operation]
    if not roles:
        return []
    if len(operands) != len(roles):
        raise Refused('operand count')
    found = []
    for role, text in zip(roles, operands):
        if not text or role != 'general' and text[0] in '@*':
            raise Refused('bad operand')
        found.append((role, *(general(text) if role == 'general' else (0, text, None))))
    return found


def size(operation, forms):
    """How many bytes an instruction has, by its operands' forms."""
    words = sum(role == 'word' or mode == 2 for role, mode, _, _ in forms)
    return 2 + 2 * words


def absolute(text, names, here):
    kind, number = tms_text.value(text, names, here)
    if kind != ABSOLUTE:
        raise Refused('bad relocation')
    return number


def value_of(form, names, here):
    """The values of one operand: that of its expression, and of its index register or None."""
    role, mode, text, index = form
    if role == 'word' or mode == 2:
        found = tms_text.value(text, names, here)
        return found, None if index is None else absolute(index, names, here)
    if role == 'target':
        found = tms_text.value(text, names, here)
        if found[0] != here[0] or found[0] == EXTERNAL:
            raise Refused('bad relocation')
        return found, None
    return (ABSOLUTE, absolute(text, names, here)), None


def distance(target, place):
    """A jump's distance in words from the instruction after it; it is taken without wrap."""
    far = target - (place + 2)
    if far % 2 or not -256 <= far <= 254:
        raise Refused('jump too far')
    return far // 2


def field_of(form, found, index, place):
    """The number that an operand puts in the instruction word: of a general one its mode and register."""
    role, mode, _, _ = form
    number = found[1]
    if role == 'target':
        return distance(number, place) & 0xFF
    if role == 'displacement':
        if 127 < number < 0xFF80:
            raise Refused('bad operand')
        return number & 0xFF
    if mode == 2:
        if index is not None and not 1 <= index <= 15:
            raise Refused('bad operand')
        return 0x20 | (index or 0)
    if number > 15:
        raise Refused('bad operand')
    return mode << 4 | number


# the place of an operand's number in the instruction word, in the order of the operands
SHIFTS = {'Two': (0, 6), 'Reg': (0, 6), 'Shift': (0, 4), 'One': (0,), 'Jump': (0,), 'Imm': (0,), 'Bare': ()}


def words_of(operation, forms, names, here, place):
    """The words of an instruction line by the second checks, each a kind and a number or an external name: first all
    values from left to right, then the ranges."""
    if operation in WHOLE_WORDS:
        return [(ABSOLUTE, WHOLE_WORDS[operation])]
    row = tms_table.ROWS[operation]
    values = [value_of(form, names, here) for form in forms]
    word, more = row.code, []
    shifts = iter(SHIFTS[row.form])
    for form, (found, index) in zip(forms, values):
        if form[0] == 'word' or form[1] == 2:
            more.append(found)
        if form[0] != 'word':
            word |= field_of(form, found, index, place) << next(shifts)
    return [(ABSOLUTE, word), *more]
