"""Random object text, by the Editor/Assembler manual: modules as groups of tag, number and name, in lines of either
form. Their DEF and REF names and the chains of uses fit together; groups are then changed to break a rule."""
import tms_expressions

RECORD = 80
# the forms of object text: lines, records of 80 characters, and records with binary fields
LINES, RECORDS, COMPRESSED = 'lines', 'records', 'compressed'
NUMBERS = tms_expressions.BORDERS


class Modules:
    """Modules that go together, each a list of groups (tag, number, name)."""

    def __init__(self, generator, count):
        self.generator = generator
        self.defined = []
        self.absolute = list(range(0x2000, 0x2400, 2)) + list(range(2, 0x200, 2))
        generator.shuffle(self.absolute)
        names = self.new_names(generator.choice((0, 1, 3, 6)))
        self.pool = list(names)
        self.modules = [self.module(names, number, count) for number in range(count)]

    def new_names(self, count):
        """Names of one to six characters, among them some that no source can have."""
        generator, found = self.generator, []
        while len(found) < count:
            name = tms_expressions.new_name(generator, found)
            if generator.random() < 0.2:
                name = ''.join(generator.choice('!~aZ_.:0F7') for _ in range(generator.choice((1, 2, 6))))
            if name not in found:
                found.append(name)
        return found

    def module(self, names, number, count):
        """One module: its first group, then words, names, entry, in any order that keeps places and words together."""
        generator = self.generator
        words, places, size = self.words()
        parts = [words]
        while names and generator.random() < (0.95 if number == count - 1 else 0.5):
            name = names.pop()
            parts.append([self.number_group('56', name)])
        if self.pool:
            for name in generator.sample(self.pool, generator.randint(0, min(3, len(self.pool)))):
                parts.append([self.chain(words, places, name)])
        if number == 0 or generator.random() < 0.2:
            parts.append([self.number_group('12')])
        if generator.random() < 0.3:
            generator.shuffle(parts)
        if generator.random() < 0.2:
            size = generator.choice((size + 1, size + 7, max(0, size - 1), 0, 0x5FFE, 0x6000, 0xFFFF))
        name = generator.choice(('        ', 'MODULE  ', '~!8 :F7a'))
        return [('0', size, name)] + [group for part in parts for group in part]

    def number_group(self, tags, name=''):
        tag = self.generator.choice(tags)
        return tag, self.generator.choice((0, 2, 8, tms_expressions.number(self.generator))), name

    def words(self):
        """Groups of words with their addresses; the places of the words by the numbers of their groups; the size."""
        generator = self.generator
        groups, places, at = [], [], 0
        for _ in range(generator.choice((0, 1, 2, 3, 5))):
            kind = generator.choice('AAA9')
            if kind == 'A':
                at += generator.choice((0, 0, 2, 16))
                groups.append(('A', at + generator.choice((0, 0, 0, 1)), ''))
            first = at
            for _ in range(generator.choice((0, 1, 2, 5, 9, 12))):
                if kind == '9':
                    first = self.absolute.pop()
                    groups.append(('9', first, ''))
                places.append((kind, first, len(groups)))
                groups.append((generator.choice('BBC'), tms_expressions.number(generator), ''))
                first += 2
            at = first if kind == 'A' else at
        return groups, places, at

    def chain(self, words, places, name):
        """A REF group; some words become the chain of its uses, each the place of the one before."""
        generator = self.generator
        used, last = [], ('9', 0)
        for _ in range(min(generator.choice((0, 1, 2, 3, 6)), len(places))):
            kind, at, number = places.pop(generator.randrange(len(places)))
            if generator.random() < 0.9 or not used:
                words[number] = ('C' if last[0] == 'A' else 'B', last[1], '')
                last = kind, at
            used.append(number)
        return ('3' if last[0] == 'A' else '4'), last[1], name


def changed(generator, modules):
    """The modules with a group changed, taken out, doubled or moved."""
    module = generator.choice(modules)
    at = generator.randrange(len(module))
    tag, number, name = module[at]
    choice = generator.randrange(7)
    if choice == 0:
        module[at] = generator.choice('0123456789ABCDEFGHI:'), number, name
    elif choice == 1:
        near = (number + 2, number - 2, number + 1, 0, 0x8300, 0x2000, 0x1FFE, 0x4000, 0x3FFE, 0xFFFE, 0x6000, 0x5FFE)
        module[at] = tag, generator.choice(near) & 0xFFFF, name
    elif choice == 2:
        module[at] = tag, number, generator.choice((name[::-1], 'OTHER', '', ' A', 'A B', '\x7f', 'A\t', 'abcdef'))
    elif choice == 3 and at:
        del module[at]
    elif choice == 4:
        module.insert(generator.randint(1, len(module)), module[at])
    elif choice == 5:
        modules.insert(generator.randint(0, len(modules)), list(module))
    else:
        group = generator.choice('12345679ABC'), generator.choice(NUMBERS), 'NEW'
        module.insert(generator.randint(0, len(module)), group)


def group_text(generator, group, compressed):
    """A group as characters."""
    tag, number, name = group
    if tag == '0':
        tag, name = '\x01' if compressed else '0', name[:8].ljust(8)
    elif tag in '3456':
        name = name[:6].ljust(6)
    if compressed:
        return f'{tag}{number >> 8:c}{number & 0xFF:c}{name}'
    digits = f'{number:04X}'
    return tag + (digits if generator.random() < 0.9 else digits.lower()) + name


def checked(generator, line, compressed):
    """A line with its end: a checksum, one that is ignored, or none; and F or not."""
    choice = generator.randrange(20)
    found = ''
    if choice < 14:
        found = '7' + number_text(-sum((line + '7').encode('latin-1')) & 0xFFFF, compressed)
        if choice == 0:
            line += found
            found = '7' + number_text(-sum((line + '7').encode('latin-1')) & 0xFFFF, compressed)
    elif choice < 17:
        found = '8' + number_text(tms_expressions.number(generator), compressed)
    return line + found


def number_text(number, compressed):
    return f'{number >> 8:c}{number & 0xFF:c}' if compressed else f'{number:04X}'


def lines_of(generator, modules, form):
    """The lines of modules."""
    found = []
    full = generator.choice((20, 40, 60, 66, 66, 66)) if form == LINES else 66
    for module in modules:
        line = ''
        for group in module:
            text = group_text(generator, group, form == COMPRESSED)
            if len(line) + len(text) > full and line:
                found.append(ended(generator, checked(generator, line, form == COMPRESSED), form))
                line = ''
            line += text
        found.append(ended(generator, checked(generator, line, form == COMPRESSED), form))
        if generator.random() < 0.1:
            found.append(generator.choice(('', ' ', ' \t ')))
        found.append(':' + generator.choice(('', ' ' * 75 + '0001', ' comment')))
    return found


def ended(generator, line, form):
    """A line with F, after which anything may stand, or without."""
    if form == LINES and generator.randrange(6) == 0:
        return line
    return line + 'F' + generator.choice(('', ' ', ' junk 0', '\x00\xff'))


def bytes_of(generator, lines, form):
    """The lines as an input."""
    if form != LINES:
        return ''.join(line[:RECORD].ljust(RECORD) for line in lines).encode('latin-1')
    ending = generator.choice(('\n', '\n', '\r\n'))
    return (ending.join(lines) + generator.choice((ending, ending, ''))).encode('latin-1')


def written(generator, modules):
    """The modules as object text of any form."""
    form = generator.choice((LINES, LINES, LINES, RECORDS, COMPRESSED))
    return bytes_of(generator, lines_of(generator, modules, form), form)
