"""The edits that turn a line of the interpreter's words, which move with the words."""
import re

from lib.repository import TOP, read_text


WORDS = 'crates/native_interp/src/words.rt'
NUMBER = re.compile(r'0x[0-9A-F]{4}|\b\d{3,}\b')


def places(text):
    """Where each line of the words stands: the heading above it, and how many lines behind that."""
    found, heading, behind = {}, '', 0
    for line in text.split('\n'):
        behind += 1
        if line.startswith('    //'):
            heading, behind = line, 0
        found[heading, behind] = line
    return found


def other_number(old, moved, new):
    """A number of the wrong line: as far from the right one as before, where that has moved."""
    if old == moved:
        return new
    if old.startswith('0x'):
        return f'0x{int(moved, 16) + int(new, 16) - int(old, 16) & 0xFFFF:04X}'
    return str(int(moved) + int(new) - int(old))


def moved_pair(path, old, new, before, after):
    """The line that an edit turns and the wrong one, as they are among the words after a change."""
    place = next((place for place, line in before.items() if old in line), None)
    if place is None or place not in after:
        raise SystemExit(f'tools/interpreter: {path} turns a line that is not there any more')
    first = len(NUMBER.findall(before[place].partition(old)[0]))
    tokens = NUMBER.findall(old)
    others = NUMBER.findall(after[place])[first:first + len(tokens)]
    if len(others) != len(tokens):
        raise SystemExit(f'tools/interpreter: {path} turns a line that has other words now')
    known = dict(zip(tokens, others))
    wrong = iter(NUMBER.findall(new))
    right = iter(others)
    changed = [other_number(token, other, next(wrong)) for token, other in zip(tokens, others)]
    changed += [known.get(token, token) for token in wrong]
    again = iter(changed)
    return NUMBER.sub(lambda it: next(right), old), NUMBER.sub(lambda it: next(again), new)


def files(text):
    """Each edit that turns a line of the words, by its path, as it is over these words."""
    before, after = places(read_text(TOP / WORDS)), places(text)
    found = {}
    for folder in ('crates/native_interp/must-fail', 'more-edits/native_interp'):
        for path in sorted((TOP / folder).glob('*.edit')):
            lines = read_text(path).split('\n')
            if lines[0] != 'file: src/words.rt':
                continue
            for at in range(1, len(lines) - 1, 2):
                old, new = lines[at].removeprefix('old: '), lines[at + 1].removeprefix('new: ')
                if old not in text:
                    old, new = moved_pair(path, old, new, before, after)
                if text.count(old) != 1:
                    raise SystemExit(f'tools/interpreter: {path} turns more lines than one')
                lines[at:at + 2] = [f'old: {old}', f'new: {new}']
            found[str(path.relative_to(TOP))] = '\n'.join(lines)
    return found
