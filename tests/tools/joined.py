"""The files of examples/lights joined by another way than tools/expand: texts are replaced, file after file.

It knows only what these files need: COPY, IFDEF, CELLS and CELL, macros and local labels.
"""
import re

LABEL = re.compile(r'(?m)^([A-Z][A-Z0-9]*)[ \n]')


def copied(folder, name):
    """The text of a file with those that it copies."""
    text = (folder / name).read_text()
    return re.sub(r'(?m)^ +COPY "(.+)"\n', lambda it: copied(folder, it[1]), text)


def chosen(text, holds):
    """A text with the lines of its IFDEF, or with those after ELSE."""
    return re.sub(r'(?ms)^ +IFDEF \w+\n(.*?)^ +ELSE\n(.*?)^ +ENDIF\n', lambda it: it[1 if holds else 2], text)


def with_cells(text):
    """A text whose cells have their addresses."""
    at, wide = 0x8300, 7
    for line in re.findall(r'(?m)^.{7}CELL .*\n', text):
        label, _, width, *_ = line.split() if line[0] != ' ' else ('', *line.split())
        size = wide * wide if width == 'WIDE*WIDE' else int(width)
        text = text.replace(line, f'{label} EQU {at}\n' if label else '', 1)
        at += size
    return re.sub(r'(?m)^ +CELLS .*\n', '', text)


def with_macros(text):
    """A text with the lines of its macros in place of their uses; the local labels of each use have its number."""
    macros = {}
    for name, names, body in re.findall(r'(?ms)^(\w+) +MACRO ?(\S*)\n(.*?)^ +ENDM\n', text):
        macros[name] = names.split(',') if names else [], body
    text = re.sub(r'(?ms)^\w+ +MACRO\b.*?^ +ENDM\n', '', text)
    for number in range(1000):
        used = re.search(rf"(?m)^(|[^\s*]\S*) +({'|'.join(macros)})(?: +((?:'.*?'|\S)+))?\n", text)
        if not used:
            break
        names, body = macros[used[2]]
        body = re.sub(r'\.(\w+)', rf'.u{number}\1', body)
        given = used[3].split(',', len(names) - 1) if names else []
        for name, value in zip(names, given):
            body = body.replace(f'\\LEN({name})', str(len(value) - 2)).replace(f'\\{name}', value)
        text = text[:used.start()] + (f'{used[1]}\n' if used[1] else '') + body + text[used.end():]
    return text


def with_labels(text):
    """A text whose local labels are names: a letter and the number of the label before them and of their own."""
    made, found, last = [], {}, ''
    for line in text.split('\n'):
        label = LABEL.match(line + '\n')
        if label and ' EQU ' not in line:
            last = label[1]
        if not line.startswith('*'):
            # a local label of a use is found in the whole source, another one after its label
            line = re.sub(r"\.([a-z]\w*)(?![^']*'(?:[^']*'[^']*')*[^']*$)", lambda it: found.setdefault(
                it[1] if it[1][:1] == 'u' and it[1][1:2].isdigit() else (last, it[1]), f'Q{len(found)}'), line)
        made.append(line)
    return '\n'.join(made)


def joined(folder, main, holds):
    return with_labels(with_macros(with_cells(chosen(copied(folder, main), holds))))
