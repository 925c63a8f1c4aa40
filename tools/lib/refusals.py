"""How a refused source is shown: as compilers show it, with the line and a note."""
import os
import re
import sys

from lib import notes
from lib.command import MOST_BYTES, STREAM, read
from lib.terminal import line_of

PLACE = re.compile(r'(?:([A-Za-z0-9._-]{1,60}) )?line ([0-9]+): (.*)')
REASONS = {3: 'a file that it copies cannot be read', 5: 'out of memory'}


def lines(data):
    """The lines of a source, as latin-1."""
    found = data.decode('latin-1').split('\n')
    return [line[:-1] if line.endswith('\r') else line for line in found[:-1]] + found[-1:]


def shown(line):
    """A line of a source for standard error: its bytes, at most as many as a line may have, but no control codes."""
    cut = line_of(line[:notes.LINE_MAXIMUM].encode('latin-1'))
    return (cut + (' ..' if len(line) > notes.LINE_MAXIMUM else '')).encode('utf-8', 'surrogateescape')


def file_shown(path):
    """The name of a file before its messages, as bytes: standard input has the name that compilers give it."""
    return b'<stdin>' if path == STREAM else line_of(os.fsencode(path)).encode('utf-8', 'surrogateescape')


def explanation(path, number, cause, line=None, note=None):
    """What standard error says of a refused line of a file: its place and cause, the line, and a note."""
    place = b'%s:%d: ' % (file_shown(path), number)
    yield place + shown(cause)
    if line is not None:
        yield b'    ' + shown(line)
    if note:
        yield place + b'note: ' + shown(note)


def of_line(path, source, number, cause, language=None):
    """The same of a refused line of a source, which is in a language."""
    texts = lines(source)
    if not 0 < number <= len(texts):
        return explanation(path, number, cause)
    return explanation(path, number, cause, texts[number - 1], notes.note_in(texts, number, cause, language))


def of_file(path, note):
    """The line of a note on a file as a whole, if there is one."""
    return [b'%s: note: %s' % (file_shown(path), shown(note))] if note else []


def write(found):
    """Writes lines to standard error."""
    for line in found:
        sys.stderr.buffer.write(line + b'\n')


def refusal(file, source, ended, language=None):
    """The lines for standard error of a run that did not assemble the source, which is in a language."""
    place = PLACE.fullmatch(ended.fault)
    if place:
        name, number, cause = place.groups()
        if not name:
            return of_line(file, source, int(number), cause, language)
        path = os.path.join(os.path.dirname(file), name)
        return of_line(path, read(path), int(number), cause, language)
    if ended.fault == 'too large' and len(source) <= MOST_BYTES:
        return [file_shown(file) + b': too large',
                file_shown(file) + b': note: a file that it copies has more than 262,144 bytes']
    reason = ended.fault or REASONS.get(ended.status, f'the program ended with status {ended.status}')
    entry = 'the entry is what END names, as in END START' if reason == 'no entry' else None
    return [file_shown(file) + b': ' + shown(reason), *of_file(file, entry)]
