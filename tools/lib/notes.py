"""What the text of a refused line says for certain of the reason why it is refused."""
import collections
import re

from lib.languages import ASSEMBLER, GPL, LEFT_OUT, OPERATIONS, of_the_other
from lib.sources import COPY

Fields = collections.namedtuple('Fields', 'label operation operands rest')

FIELDS = re.compile(r"([^ \t]*)[ \t]*([^ \t]*)[ \t]*((?:[^ \t']|'[^']*(?:'|\Z))*)(.*)", re.S)
QUOTED = re.compile(r"'[^']*(?:'|\Z)")
LONG_NAME = re.compile(r'(?<![0-9A-Za-z>])[A-Za-z][0-9A-Za-z]{6,}')
UNDERSCORE = re.compile(r'\b(?=[A-Za-z_])\w*_\w*', re.A)
ZERO_X = re.compile(r'(?<![0-9A-Za-z>])0[xX]([0-9A-Fa-f]+)')
OPERAND = re.compile(r"[-0-9@*>'$].*|[VGRvgr]@.*|[Vv]\*.*|[Rr](?:1[0-5]|[0-9]),.*", re.S)
NAME = re.compile(r'[A-Za-z][0-9A-Za-z]{0,5}')
WORD = re.compile(r'(?<![0-9A-Za-z>])[A-Za-z][0-9A-Za-z]*')
LINE_MAXIMUM = 256
# how object text begins, printed or compressed: the group of the module's name, and the tag of the next one
OBJECT = re.compile(rb'0[0-9A-Fa-f]{4}[ -~]{8}[1-9A-C][0-9A-Fa-f]{4}|\x01..[ -~]{8}[1-9A-CF]', re.S)
NUMBER = re.compile(r'([0-9]+)|>([0-9A-Fa-f]+)')
# what other assemblers write: the prefixes of operands of GPL by what they are here, and hexadecimal numbers
PREFIX = re.compile(r'(?:^|,)((?:VDP|VRAM|GROM|GRAM|RAM|CPU)@)', re.I)
PREFIXES = {'VDP@': 'V@', 'VRAM@': 'V@', 'GROM@': 'G@', 'GRAM@': 'G@', 'RAM@': '@', 'CPU@': '@'}
DOLLAR = re.compile(r'(?:^|[,@(+*/-])\$([0-9A-Fa-f]+)(?![0-9A-Za-z])')
# the operations and directives that take a value itself, and no place in memory
OF_VALUES = {GPL: {'B', 'BR', 'BS', 'CALL', 'EQU', 'DATA', 'BYTE', 'AORG', 'GROM', 'BSS'},
             ASSEMBLER: {'EQU', 'DATA', 'BYTE', 'AORG', 'RORG', 'DORG', 'BSS', 'BES'}}
# what an operand of GPL begins with that lies in memory or has an index: its address and index must be known before
IN_MEMORY = re.compile(r"(?:(?:^|,)(?:V?@|V?\*)|\(@)([^,(]*)", re.I)
KNOWN_BEFORE = {GPL: {'EQU', 'GROM', 'AORG', 'BSS'}, ASSEMBLER: {'EQU', 'AORG', 'RORG', 'DORG', 'BSS', 'BES'}}
REGISTERS = {f'R{number}' for number in range(16)}

ALPHANUMERIC = 'a name has letters and digits alone, and no _'


def fields(line):
    """The fields of a line, as the assemblers find them."""
    return Fields(*FIELDS.match(line).groups())


def names_in(line, language):
    """The names that the operands of a line have, in upper case, as the assemblers compare them; what an operand of GPL
    begins with is none."""
    bare = QUOTED.sub(' ', fields(line).operands)
    if language == GPL:
        bare = re.sub(r'(^|,)(?:[VGR]@|V\*)', r'\1 ', bare, flags=re.I)
    return [word.upper() for word in WORD.findall(bare)]


def too_long(name):
    return f'a name has at most six letters and digits, and {name} has {len(name)}'


def mark_note(line):
    """Of a mark that an editor puts before a text, as latin-1."""
    if line.startswith('\xef\xbb\xbf'):
        return 'the line begins with a byte order mark; save the file without one'
    if line.startswith('\xff\xfe'):
        return 'the line begins with the mark of UTF-16; save the file as plain text'
    return None


def label_note(found):
    label = found.label
    if mark_note(label):
        return mark_note(label)
    if label.startswith(';'):
        return 'a comment line begins with *'
    if label.endswith(':') and NAME.fullmatch(label[:-1]):
        return 'a label has no colon'
    if LONG_NAME.fullmatch(label):
        return too_long(label)
    if UNDERSCORE.fullmatch(label):
        return ALPHANUMERIC
    return 'a name begins with a letter' if label[:1].isdecimal() else None


def operation_note(found, language):
    operation = found.operation.upper()
    if found.label and OPERAND.fullmatch(found.operation):
        return f'what begins in column 1 is a label, so the operation of this line is {found.operation}'
    if language == GPL and operation in LEFT_OUT:
        return f'{operation} is an operation of GPL that is left out here'
    return of_the_other(operation, language) if language else None


def missing_note(line):
    found = COPY.match(line.encode('latin-1'))
    if not found or found[2] == found[3]:
        return None
    return f'a file is named without its device: "{found[3].decode("latin-1")}", beside the source'


def copy_note(found):
    if re.search(r'[/\\]', found.operands):
        return 'COPY takes the name of a file beside the source, and no path'
    if not re.match('["\']', found.operands):
        return 'COPY takes the name of a file between two "'
    return None


def comma_note(found, cause):
    """Of commas beside a blank, and of operands that are empty."""
    bare, rest = QUOTED.sub("''", found.operands), found.rest.strip(' \t')
    if bare.endswith(',') and rest:
        return 'a blank ends the operands; write none after a comma'
    if cause == 'operand count' and bare and ',' not in bare and rest.startswith(','):
        return 'a blank ends the operands; write none before a comma'
    if bare and '' in bare.split(','):
        return 'an operand is empty'
    return None


def quote_note(found):
    """Of quotes that are open, or of another kind."""
    if found.operands.count("'") % 2:
        return "a quote is open at the end of the line; a ' in a text is written twice"
    if '"' in QUOTED.sub("''", found.operands):
        return "a text or a character is written between two ', not between two \""
    return None


def token_note(found, language):
    """Of names and numbers that are none."""
    bare = QUOTED.sub("''", found.operands)
    name, number = LONG_NAME.search(bare), ZERO_X.search(bare) or DOLLAR.search(bare)
    if number:
        return f'a hexadecimal number begins with >, as >{number[1].upper()}'
    if value_note(found, language):
        return value_note(found, language)
    if language == GPL and re.search(r'@[^,(]+\((?!@)', bare):
        return 'an index is the address of a word, and begins with @, as in @>8300(@>8302)'
    if name:
        return too_long(name[0])
    return ALPHANUMERIC if UNDERSCORE.search(bare) else None


def split(operands):
    """Operands, as commas outside of quotes part them."""
    return re.findall(r"(?:[^,']|'[^']*(?:'|\Z))+", operands)


def is_text(operand):
    """Whether an operand is a text, and no character or two, which are a number."""
    return bool(re.fullmatch(r"'(?:[^']|''){3,}'", operand))


def value_note(found, language):
    """Of what is given in place of values."""
    operation, operands = found.operation.upper(), split(found.operands)
    if operation in OF_VALUES.get(language, ()) and any(operand.startswith('@') for operand in operands):
        return f'{operation} takes the value itself, without @'
    if operation in ('DATA', 'BYTE') and any(map(is_text, operands)):
        return 'a text is placed by TEXT'
    return None


def is_above_a_byte(operand):
    """Whether an operand is a number that no byte holds."""
    found = NUMBER.fullmatch(operand)
    return bool(found) and (int(found[1]) if found[1] else int(found[2], 16)) > 255


def form_note(found, language):
    """Of operands whose form their operation does not take."""
    operation, bare = found.operation.upper(), QUOTED.sub("''", found.operands)
    if operation in ('DEF', 'REF'):
        return token_note(found, language)
    prefix, number = PREFIX.search(bare), DOLLAR.search(bare)
    if language == GPL and prefix:
        return f'{prefix[1].upper()} is written {PREFIXES[prefix[1].upper()]} here'
    if number:
        return f'a hexadecimal number begins with >, as >{number[1].upper()}'
    operands = bare.split(',')
    if operation == 'MOVE' and len(operands) == 3 and operands[1].upper().startswith('G@'):
        return 'MOVE takes length, target and source, in this order, and G@ is no target'
    return value_note(found, language) or byte_note(operation, operands, language)


def byte_note(operation, operands, language):
    """Of a number that no byte holds."""
    if operation == 'BYTE' and any(map(is_above_a_byte, operands)):
        return 'a byte is at most 255, or >FF'
    has_words = language == GPL and f'D{operation}' in OPERATIONS[GPL]
    if has_words and len(operands) == 2 and is_above_a_byte(operands[1]):
        return f'{operation} takes a byte, which is at most 255, or >FF; D{operation} takes a word'
    return None


def count_note(found):
    """Of operands that are written as other assemblers do."""
    words = f'{found.operands} {found.rest}'.upper().split()
    if found.operation.upper() == 'MOVE' and 'TO' in words and ',' not in found.operands:
        return 'MOVE takes length, target and source, in this order, with commas between them, as in MOVE 5,V@0,G@>6000'
    return None


def register_note(found):
    if found.operation.upper() in ('B', 'BL', 'BLWP') and NAME.fullmatch(found.operands):
        return f'an operand without @ or * is a register; the address is @{found.operands}'
    return None


def first_names(found, language):
    """The names of a line that must have a value before it, from the left; and what takes them."""
    operation, bare = found.operation.upper(), QUOTED.sub("''", found.operands)
    if operation in KNOWN_BEFORE[language]:
        return WORD.findall(bare), operation
    parts = IN_MEMORY.findall(bare) if language == GPL else []
    return [name for part in parts for name in WORD.findall(part)], 'an address in an operand'


def first_lines(texts):
    """The numbers of the lines that define labels first, up to the end of a source."""
    defined = {}
    for number, text in enumerate(texts, 1):
        found = fields(text)
        if not text.startswith('*'):
            defined.setdefault(found.label.upper(), number)
        if found.operation.upper() == 'END' and not text.startswith('*'):
            break
    return defined


def label_twice_note(texts, number):
    """Of a label that has a value already: from a line above, or since it is a register."""
    label = fields(texts[number - 1]).label
    at = first_lines(texts).get(label.upper(), number)
    if label.upper() in REGISTERS:
        return f'{label} is a register'
    return f'{label} has its value from line {at}' if at < number else None


def later_note(texts, number, language):
    """Of a name that a line of a source must know, and that gets its value in a later one."""
    defined = first_lines(texts)
    names, what = first_names(fields(texts[number - 1]), language)
    for name in names:
        at = defined.get(name.upper(), number)
        if name.upper() not in REGISTERS and at >= number:
            later = f'{name} gets its value in line {at}, and {what} takes names of earlier lines alone'
            return later if at > number else None
    return None


def note_in(texts, number, cause, language=None):
    """Why one of the lines of a source was refused for a cause, if the source says so for certain; else None."""
    if cause == 'unknown name':
        return later_note(texts, number, language) if language else None
    if cause == 'duplicate label':
        return label_twice_note(texts, number)
    return note(texts[number - 1], cause, language)


def note(line, cause, language=None):
    """The same by the text of the line alone. Without a language it may be of any."""
    if len(line) > LINE_MAXIMUM:
        return None
    found = fields(line)
    if cause == 'bad label':
        return label_note(found)
    if cause == 'unknown operation':
        return operation_note(found, language)
    if cause == 'bad relocation':
        return register_note(found)
    if cause.startswith('missing '):
        return missing_note(line)
    if cause == 'bad directive':
        return copy_note(found) if found.operation.upper() == 'COPY' else quote_note(found)
    if cause in ('operand count', 'bad operand', 'bad token'):
        if cause == 'operand count':
            return count_note(found) or comma_note(found, cause) or quote_note(found)
        last = token_note if cause == 'bad token' else form_note
        return comma_note(found, cause) or quote_note(found) or last(found, language)
    return None


def kind_note(data):
    """What an input is that is refused as a source, if it is certainly none."""
    if OBJECT.match(data):
        return 'this is object text, and no source; link takes it'
    if b'\0' in data and not data.startswith((b'\xff\xfe', b'\xfe\xff')):
        return 'this is no text; the bytes of an image are listed by gdis'
    return None
