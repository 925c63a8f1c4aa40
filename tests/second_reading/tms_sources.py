"""Random assembler sources that go through the rows of the Editor/Assembler manual's rules. First the lines are planned
with their labels, so that the kind of each name is known, and then they are written. Most are accepted; tms_damage
makes others of them."""
import tms_expressions
import tms_operands
from tms_text import ABSOLUTE, EXTERNAL, RELOCATABLE

SECTION_STARTS = ('AORG', 'AORG', 'DORG', 'RORG', 'RORG', 'RORG')
PLAIN = ('instruction',) * 14 + ('DATA',) * 4 + ('BYTE', 'BYTE', 'TEXT', 'BSS', 'BES', 'EVEN', 'EQU', 'EQU', 'comment',
                                                 'blank', 'label', 'other')
INSTRUCTIONS = sorted(tms_operands.INSTRUCTIONS)
JUMPS = {name for name, roles in tms_operands.INSTRUCTIONS.items() if roles == ('target',)}
# how often a planned line has a label, where it is not as others
LABELLED = {'label': 1, 'comment': 0, 'blank': 0}
COMMENTS = ('', '', '', '', ' comment', "\tisn't it", ' ; x', " 'quoted, text", ' ' + '\xff\x00')


class Source:
    """A source as it is made: its planned lines and what is known of its names."""

    def __init__(self, generator):
        self.generator = generator
        self.kinds = {}
        self.earlier = {}
        self.plan = []
        self.section_kind, self.section_placed = RELOCATABLE, True
        # the line that is written, and whether its place may be so low that no jump goes far down
        self.at, self.low = 0, True
        self.aorgs = list(range(15))
        generator.shuffle(self.aorgs)
        self.make_plan()

    def chance(self, share):
        return self.generator.random() < share

    def make_plan(self):
        """Plans sections of lines; a label's kind is that of its section, an EQU's is chosen."""
        generator = self.generator
        kind = RELOCATABLE
        for section in range(generator.choice((1, 1, 2, 3, 4))):
            if section:
                start = generator.choice(SECTION_STARTS)
                kind = RELOCATABLE if start == 'RORG' else ABSOLUTE
                self.planned(start, kind)
            for _ in range(generator.choice((0, 3, 8, 15, 30, 50))):
                operation = generator.choice(PLAIN)
                if operation == 'EQU':
                    self.planned('EQU', generator.choice((ABSOLUTE, RELOCATABLE)), 1)
                else:
                    self.planned(operation, kind, LABELLED.get(operation, 0.3))
        for name in [tms_expressions.new_name(generator, self.kinds) for _ in range(generator.choice((0, 0, 1, 3)))]:
            if name not in self.kinds:
                self.kinds[name] = EXTERNAL
                self.plan.insert(generator.randint(0, len(self.plan)), ('REF', name, None))
        for name in sorted(self.kinds):
            if self.kinds[name] != EXTERNAL and self.chance(0.2):
                self.plan.insert(generator.randint(0, len(self.plan)), ('DEF', name, None))
        if self.chance(0.7):
            self.plan.append(('END', None, None))

    def planned(self, operation, kind, labelled=0.2):
        label = None
        if self.chance(labelled):
            label = tms_expressions.new_name(self.generator, self.kinds)
            self.kinds[label] = kind
        self.plan.append((operation, label, kind))

    def of_kind(self, kind, names=None):
        return [name for name, its in (self.kinds if names is None else names).items() if its == kind]

    def absolute(self, names=None):
        """An absolute expression of any value."""
        generator = self.generator
        relocatable, absolute = self.of_kind(RELOCATABLE, names), self.of_kind(ABSOLUTE, names)
        choice = generator.randrange(6)
        if choice == 0 and relocatable:
            first = f'{generator.choice(relocatable)}-{generator.choice(relocatable)}'
        elif choice == 1 and absolute:
            first = generator.choice(('', '', '-')) + generator.choice(absolute)
        elif choice == 2 and self.section_kind == ABSOLUTE:
            first = '$'
        else:
            first = tms_expressions.exact(generator, tms_expressions.number(generator))
        while self.chance(0.15):
            sign = generator.choice('+-*/')
            other = generator.choice(tms_expressions.BORDERS[1:])
            first += sign + tms_expressions.written(generator, other)
        return first

    def relocatable(self, names=None):
        """A relocatable expression, or None where nothing relocatable is known."""
        generator = self.generator
        known = self.of_kind(RELOCATABLE, names) + ['$'] * (self.section_kind == RELOCATABLE)
        if not known:
            return None
        text = generator.choice(known)
        choice = generator.randrange(6)
        number = tms_expressions.written(generator, tms_expressions.number(generator))
        return (text, text, f'{text}+{number}', f'{text}-{number}', f'{number}+{text}',
                f'{text}-{generator.choice(known)}+{generator.choice(known)}')[choice]

    def any_value(self):
        """An expression of any kind."""
        choice = self.generator.randrange(10)
        external = self.of_kind(EXTERNAL)
        if choice < 2 and external:
            return self.generator.choice(external)
        return choice < 5 and self.relocatable() or self.absolute()

    def register(self, least=0):
        number = self.generator.randint(least, 15)
        if self.chance(0.7):
            return f'R{number}'
        return tms_expressions.exact(self.generator, number)

    def general(self):
        """A general operand of each mode."""
        mode = self.generator.randrange(6)
        if mode == 0:
            return self.register()
        if mode < 3:
            return f'*{self.register()}' + ('+' if mode == 2 else '')
        return f'@{self.any_value()}' + (f'({self.register(1)})' if mode == 3 else '')

    def instruction(self, operation):
        """The operand field of an instruction."""
        found = []
        for role in tms_operands.INSTRUCTIONS[operation]:
            if role == 'general':
                found.append(self.general())
            elif role == 'register':
                found.append(self.register())
            elif role == 'word':
                found.append(self.any_value())
            elif role == 'displacement':
                number = self.generator.choice((-128, -127, -1, 0, 1, 126, 127, self.generator.randint(-128, 127)))
                found.append(f'{number}')
            else:
                found.append(self.target())
        return ','.join(found)

    def target(self):
        """A jump's target: a distance at a border, or a label that is likely to be near."""
        near = [label for _, label, kind in self.plan[max(0, self.at - 6):self.at + 6]
                if label and kind == self.section_kind]
        if near and self.chance(0.4):
            return self.generator.choice(near)
        far = self.generator.choice((0, 2, 4, 128, 254, 256) if self.low else (-254, -252, -128, -2, 0, 2, 254, 256))
        return f'${far:+d}' if far else '$'

    def write(self):
        """The lines of the source."""
        found = []
        if self.chance(0.5):
            found.append(' BSS 254')
            self.low = False
        for self.at, planned in enumerate(self.plan):
            found.append(self.line(*planned))
        return found

    def line(self, operation, label, kind):
        """One line as it was planned; its label is known to the lines that follow."""
        generator = self.generator
        if operation == 'comment':
            return '*' + generator.choice(COMMENTS) + '-' * generator.choice((0, 0, 0, 240))
        if operation == 'blank':
            return generator.choice(('', ' ', '\t', ' \t '))
        written, field = self.statement(operation, label, kind)
        named = label if label and operation not in ('REF', 'DEF') else ''
        blank = generator.choice((' ', ' ', '  ', '\t', ' \t ', '       '))
        text = tms_expressions.cased(generator, named)
        if written:
            text += blank + tms_expressions.cased(generator, written)
        if field:
            text += generator.choice((' ', ' ', '   ', '\t')) + field
        if named:
            self.earlier[named] = kind
        return text + generator.choice(COMMENTS) if field or written in EMPTY else text

    def statement(self, operation, label, kind):
        """The operation and the operand field of a planned line."""
        generator = self.generator
        if operation == 'instruction':
            name = generator.choice(INSTRUCTIONS)
            return name, self.instruction(name)
        if operation in STATEMENTS:
            return operation, STATEMENTS[operation](self, kind)
        if operation in ('REF', 'DEF'):
            return operation, tms_expressions.cased(generator, label)
        if operation == 'other':
            return generator.choice(OTHERS)
        return ('', '') if operation == 'label' else (operation, '')


def origin(source, kind):
    """AORG and DORG: an area of its own, so that few overlap; some at an end of memory."""
    source.section_kind = ABSOLUTE
    area = source.aorgs.pop() if source.aorgs else 0
    place = source.generator.choice((0, 0, 1, 2, 0x7FE, 0xE00)) + area * 0x1000
    if source.chance(0.05):
        place = 0xFFE0
    source.low = place < 0x100
    return tms_expressions.exact(source.generator, place)


def relocatable_origin(source, kind):
    """RORG: after all that was reached, or at a number."""
    source.section_kind = RELOCATABLE
    if source.chance(0.5):
        return ''
    source.low = False
    return source.relocatable(source.earlier) if source.chance(0.2) else f'>{source.generator.randrange(1, 15):X}000'


def block(source, kind):
    return tms_expressions.exact(source.generator, source.generator.choice((0, 0, 1, 2, 3, 15, 16, 100, 255, 256)))


def equ(source, kind):
    return kind == RELOCATABLE and source.relocatable(source.earlier) or source.absolute(source.earlier)


def data(source, kind):
    return ','.join(source.any_value() for _ in range(source.generator.choice((1, 1, 2, 3, 5, 8))))


def byte(source, kind):
    generator = source.generator
    borders = (0, 1, 127, 128, 254, 255, 0xFF80, 0xFF81, 0xFFFF)
    return ','.join(tms_expressions.exact(generator, generator.choice(borders))
                    for _ in range(generator.choice((1, 1, 2, 3, 7))))


def text(source, kind):
    return tms_expressions.characters(source.generator, source.generator.choice((0, 1, 2, 5, 40)))


def end(source, kind):
    choice = source.generator.randrange(4)
    return ('', source.relocatable() or '', source.relocatable() or '', source.absolute())[choice]


STATEMENTS = {'AORG': origin, 'DORG': origin, 'RORG': relocatable_origin, 'BSS': block, 'BES': block, 'EQU': equ,
              'DATA': data, 'BYTE': byte, 'TEXT': text, 'END': end}
OTHERS = (('PAGE', ''), ('LIST', ''), ('UNL', ''), ('IDT', "'MODULE'"), ('IDT', "''"), ('IDT', "'O''K, 8 !'"),
          ('TITL', "'a title, longer than eight'"), ('TITL', "''"))
# these ignore the rest of the line
EMPTY = {name for name, roles in tms_operands.INSTRUCTIONS.items() if not roles} | {'EVEN', 'PAGE', 'LIST', 'UNL'}
