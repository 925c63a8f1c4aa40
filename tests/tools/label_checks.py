"""What has to be true of a labelled source, worked out from its text and the image alone."""
import random
import re

ROW = re.compile(r'(\S*) +([A-Z]+)(?: +(.*?))? +\* >([0-9A-F]{4})([^*]*)')
SAMPLE = 4           # instructions of a source whose addresses are looked at


def fault(program, case, text):
    """What is wrong with the source of a case, or nothing."""
    if case.lister == 'gdis':
        made = program.run('gasm', given=text)
        if made.status or made.out != case.data:
            return f'other bytes: {made.fault}'
    else:
        made = program.run('asm', given=text)
        if made.status or words(made.out) != wanted_words(case.at, case.data):
            return f'other words: {made.fault}'
    return fault_of_comments(program, case, text.decode('ascii').splitlines())


def fault_of_object(program, folder, object_, text, is_moved=True):
    """What is wrong with the source of an object, or nothing: alone and, if it can be moved, after another module, it
    has to be linked to the same memory, with the same names."""
    made = program.run('asm', given=text)
    if made.status:
        return made.fault
    for name, data in (('OLD', object_), ('NEW', made.out), ('GAP', program.run('asm', given=b' BSS 130\n').out)):
        (folder / name).write_bytes(data)
    for before in [[], ['GAP']][:1 + is_moved]:
        old, new = (program.run('link', *before, name, folder=folder) for name in ('OLD', 'NEW'))
        if old != new:
            return f'linked otherwise {before}: {new.out[:300]}'
    return ''


def words(text):
    """The words of an object text of absolute words by their addresses, or None if it has others."""
    found, at = {}, 0
    for number, line in enumerate(text.decode('ascii').splitlines()):
        if line.startswith(':'):
            return found
        groups = line[:76].rstrip()[:-len('7....F')]
        for tag, digits in re.findall('(.)(....)', groups[13:] if number == 0 else groups):
            if tag == '9':
                at = int(digits, 16)
            elif tag == 'B' and at not in found:
                found[at] = int(digits, 16)
                at += 2
            elif tag != '1':
                return None
    return None


def wanted_words(at, data):
    data += bytes(len(data) % 2)
    return {at + i: data[i] << 8 | data[i + 1] for i in range(0, len(data), 2)}


def fault_of_comments(program, case, lines):
    """What is wrong with the addresses in comments: of the rows that have one, the bytes there have to be the row's."""
    names, rows = names_and_rows(lines)
    end = None
    for operation, operands, at, follows in rows:
        data = bytes_of(operation, operands, names)
        if data is not None:
            if case.data[at - case.at:at - case.at + len(data)] != data:
                return f'other data at >{at:04X}: {operation} {operands}'
        if follows and end not in (None, at):
            return f'a row at >{at:04X} in place of >{end:04X}'
        end = None if data is None else at + len(data)
    code = [row for row in rows if bytes_of(row[0], row[1], names) is None]
    for operation, operands, at, _ in random.Random(1).sample(code, min(SAMPLE, len(code))):
        listed = program.run(case.lister, f'{at:04X}', given=case.data[at - case.at:][:32]).out.decode('ascii')
        first = next(line for line in listed.splitlines() if line.split()[0] not in ('GROM', 'AORG'))
        if first.strip() != f'{operation} {plain(operands, names)}'.strip():
            return f'another instruction at >{at:04X}'
    return ''


def names_and_rows(lines):
    """The values of names, by the comments of the rows that they stand at; and the rows that have a comment, each with
    whether no other row stands before it."""
    names, rows, waiting, values, follows = {}, [], [], {}, False
    for line in lines:
        found = ROW.fullmatch(line)
        if found and not line.startswith('*'):
            at = int(found[4], 16)
            rows.append((found[2], found[3] or '', at, follows))
            names.update(dict.fromkeys([it for it in [*waiting, found[1]] if it], at))
            waiting, follows = [], True
        elif equated := re.fullmatch(r'(\S+) +EQU +(\S+)', line):
            values[equated[1]] = equated[2]
        elif re.fullmatch('[A-Z][A-Z0-9]*', line):
            waiting.append(line)
        elif not line.startswith('*'):
            follows = False
    names.update({name: value_of(value, names) for name, value in values.items()})
    return names, rows


def value_of(word, names):
    """The value of a number, a name, or a name and a number; None if the name has no comment."""
    if word.startswith('>'):
        return int(word[1:], 16)
    name, _, more = word.partition('+')
    return None if names.get(name) is None else names[name] + int(more or '0')


def bytes_of(operation, operands, names):
    """The bytes of a row of data; None of an instruction, or if a name has no comment."""
    if operation == 'TEXT':
        return operands[1:-1].replace("''", "'").encode('ascii')
    if operation not in ('BYTE', 'DATA'):
        return None
    values = [value_of(word, names) for word in operands.split(',')]
    return None if None in values else b''.join(it.to_bytes(1 if operation == 'BYTE' else 2, 'big') for it in values)


def plain(operands, names):
    """The operands with numbers in place of names."""
    return re.sub(r'(?<![A-Z0-9>])([A-Z][A-Z0-9]*)((?:\+\d+)?)(?![A-Z0-9*@])',
                  lambda it: f'>{value_of(it[0], names):04X}' if names.get(it[1]) is not None else it[0], operands)
