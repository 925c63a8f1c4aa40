"""Cases of the loader: object text, on the standard input or in files, with the memory of its linked modules or its
fault line, by the Editor/Assembler manual."""
import tms_groups
import tms_runs
from case import Case

FILE_NAMES = ('A', 'b.obj', '-9', '_', 'ONE', 'TWO', 'N' * 60)
NO_FILE_NAMES = ('.A', 'A/B', '', 'N' * 61, 'A B', '../A', 'A\xe9', '?')
USAGE = (b'usage: ti_bench asm|link [NAME ...]|dis ADDR|exec N|gasm|gdis ADDR|interp|run N|trace N|demo K'
         b'|watch N ITEM ...\n')
SHORT = (b'', b'\n', b' \n\n', b'\x01', b' ' * 80, b':', b':\n', b'F', b'F\n', b'0', b'\r\n')
CHARACTERS = ' \t0123456789ABCDEFGHI:afg~!\x00\x01\x7f\xff\r\n'


def damaged(generator, data):
    """Object text with a character changed, put in or taken out, cut off, or with lines moved."""
    text = data.decode('latin-1')
    at = generator.randint(0, len(text))
    choice = generator.randrange(8)
    if choice < 3:
        text = text[:at] + generator.choice(CHARACTERS) + text[at + 1:]
    elif choice == 3:
        text = text[:at] + generator.choice(CHARACTERS) + text[at:]
    elif choice == 4:
        text = text[:at] + text[at + 1:]
    elif choice == 5:
        text = text[:at]
    else:
        lines = text.split('\n')
        line = lines.pop(generator.randrange(len(lines)))
        if choice == 6:
            lines.insert(generator.randint(0, len(lines)), line)
        text = '\n'.join(lines)
    return text.encode('latin-1')


def many(generator):
    """Modules at the limits: how many there are, and the names and words of one."""
    choice = generator.randrange(10)
    if choice < 3:
        count = generator.choice((63, 64, 65))
        last = generator.choice(('0', '0', 'B'))
        return [[('0', 2, ''), ('1', 0, '')]] * (count - 1) + [[(last, 2, '')]]
    if choice < 9:
        tags = generator.choice(('56', '5', '43', '4'))
        count = generator.choice((255, 256, 257))
        names = [(generator.choice(tags), 0, f'N{number}') for number in range(count)]
        other = [[('0', 0, ''), *(('6', number, name) for number, (_, _, name) in enumerate(names))]]
        return [[('0', 0, ''), *names, ('2', 0, '')]] + (other if tags[0] == '4' else [])
    count = generator.choice((32767, 32768, 32769))
    return [[('0', 0, ''), ('A', 0, ''), *[('B', 0x1234, '')] * count]]


def object_text(generator):
    """Object text and how many groups it has; mostly accepted."""
    chance = generator.random()
    if chance < 0.01:
        modules = many(generator)
    elif chance < 0.02:
        return generator.choice(SHORT), 1
    else:
        modules = tms_groups.Modules(generator, generator.choice((1, 1, 2, 2, 3, 5))).modules
        if generator.random() < 0.25:
            tms_groups.changed(generator, modules)
    data = tms_groups.written(generator, modules)
    if generator.random() < 0.15:
        data = damaged(generator, data)
    return data, sum(len(module) for module in modules)


def given(generator):
    """Object text on the standard input."""
    data, count = object_text(generator)
    status, out, err = tms_runs.link_report(data)
    return Case('ti_bench', ('link',), data, {}, status, out, err, count)


def one_module(generator, number, entry):
    """A module of one file, whose names go with those of the others."""
    groups = [('0', generator.choice((2, 3, 8)), f'FILE{number}'), ('A', 0, ''), ('B', 0, ''),
              ('5', generator.choice((0, 2)), f'D{number}')]
    if number and generator.random() < 0.8:
        groups.append(('3', 0, f'D{generator.randrange(number)}'))
    return groups + [('2', 0, '')] * entry


def filed(generator):
    """Files of object text, or words that are no names of files."""
    files, count = {}, 0
    names = generator.sample(FILE_NAMES, generator.choice((1, 2, 3, 5)))
    for number, name in enumerate(names):
        if generator.random() < 0.85:
            modules = [one_module(generator, number, number == 0)]
            data, added = tms_groups.written(generator, modules), len(modules[0])
            if generator.random() < 0.1:
                data = damaged(generator, data)
        else:
            data, added = object_text(generator)
        files[name] = data
        count += added
    chance = generator.random()
    if chance < 0.05:
        del files[generator.choice(names)]
    elif chance < 0.1:
        names.append(generator.choice(names))
    elif chance < 0.15:
        names += ['A'] * generator.choice((16 - len(names), 17 - len(names)))
        files.setdefault('A', b'')
    elif chance < 0.155:
        files[generator.choice(names)] = b' ' * (tms_runs.LARGEST + generator.choice((0, 1)))
    if 0.2 < chance < 0.25 or len(names) > 16:
        if chance > 0.2:
            names.insert(generator.randint(0, len(names)), generator.choice(NO_FILE_NAMES))
        return Case('ti_bench', ('link', *names), b'', files, 2, b'', USAGE, 1)
    status, out, err = tms_runs.files_report(names, files)
    return Case('ti_bench', ('link', *names), b'', files, status, out, err, count)


def link(generator):
    """Object text with its linked memory or its fault line."""
    return filed(generator) if generator.random() < 0.2 else given(generator)
