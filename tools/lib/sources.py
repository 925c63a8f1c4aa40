"""The kinds of source, by the endings of their names, and the files that an assembler source copies."""
import os
import re

# the command of ti_bench that takes a source whose name has the ending
COMMANDS = {'.gpl': 'gasm', '.a': 'asm', '.asm': 'asm', '.src': 'asm', '.a99': 'asm'}
# a line that copies a file: its name, and the same without the device that it may begin with
COPY = re.compile(rb'^[^\s*]*[ \t]+COPY[ \t]+(["\'])((?:DSK[0-9A-Z]\.)?(.+?))\1', re.M | re.I)
# how deep a file may be copied, and the most bytes that it may have
DEEPEST, MOST_COPIED = 4, 262_144


def endings(command):
    """The endings of the sources that a command takes."""
    return {ending for ending, taken_by in COMMANDS.items() if taken_by == command}


def names_copied(source):
    """The names of the files that the lines of a source copy, each as it is written and without its device."""
    if b'COPY' not in source.upper():
        return set()
    return {os.fsdecode(name) for found in COPY.findall(source) for name in found[1:]}


def copied(path, source):
    """The files beside a source that it copies, and those that they copy."""
    folder, found, texts = os.path.dirname(path), set(), [source]
    for _ in range(DEEPEST):
        named = {os.path.join(folder, name) for text in texts for name in names_copied(text)}
        new = {file for file in named - found if os.path.isfile(file)}
        found |= new
        texts = [text_copied(file) for file in new]
    return sorted(found)


def text_copied(path):
    """The text of a file that is copied, and a byte more than it may have; none if it cannot be read."""
    try:
        with open(path, 'rb') as file:
            return file.read(MOST_COPIED + 1)
    except OSError:
        return b''
