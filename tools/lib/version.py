"""The version of ti_bench, and the time of the commit that it is of."""
import functools
import os
import re
import subprocess
import sys

from lib.command import Stopped, name
from lib.repository import TOP, read_text
from lib.terminal import escaped

# what a version ends with if the files are not those of the commit
MODIFIED = '.modified'
NUMBERED = re.compile(r'\d+(\.\d+)*')


@functools.lru_cache(maxsize=None)
def say(line):
    """Writes a line to standard error, once."""
    print(f'{name()}: {line}', file=sys.stderr)


def git(*words, top=TOP):
    """What git answers about the repository; no text if there is no git, or the folder is no repository of its own. If
    git refuses to answer, as in a folder of somebody else, its reason is said."""
    if not (top / '.git').exists():
        return ''
    try:
        ended = subprocess.run(['git', '-C', top, *words], capture_output=True, env={**os.environ, 'LC_ALL': 'C'})
    except OSError:
        return ''
    if ended.returncode:
        say(f'git: {escaped(os.fsdecode(ended.stderr).partition(chr(10))[0])}')
        return ''
    return os.fsdecode(ended.stdout).strip()


def version(top=TOP):
    """The text of the file VERSION, which all that is handed out has. In the repository it is the newest number of
    CHANGELOG.md, if the commit has that as its tag and no file differs from it; else the commit follows."""
    if (top / 'VERSION').is_file():
        return read_text(top / 'VERSION').strip()
    headings = re.findall(r'^## (\S+)', read_text(top / 'CHANGELOG.md'), re.M)
    numbers = [heading for heading in headings if NUMBERED.fullmatch(heading)]
    if not numbers:
        raise Stopped('CHANGELOG.md has no heading with a number')
    made = commit(top)
    tags = git('tag', '--points-at', 'HEAD', top=top).split() if made else []
    is_release = headings[0] == numbers[0] in tags and not made.endswith(MODIFIED)
    return numbers[0] if is_release else f'{numbers[0]}+{made or "unreleased"}'


def commit(top=TOP):
    """The commit as a part of a version: its day and its name, and whether files differ from it or are not in it. No
    text if there is none."""
    day = git('log', '-1', '--format=%cs', top=top).replace('-', '')
    if not day:
        return ''
    changed = git('status', '--porcelain', top=top)
    return f'git{day}.{git("rev-parse", "--short=8", "HEAD", top=top)}{MODIFIED if changed else ""}'


def moment(top=TOP):
    """When the commit was made, or what SOURCE_DATE_EPOCH says, in seconds."""
    seconds = os.environ.get('SOURCE_DATE_EPOCH') or git('log', '-1', '--format=%ct', top=top)
    if not re.fullmatch(r'[0-9]+', seconds):
        raise Stopped('there is no commit here whose time the files could get; SOURCE_DATE_EPOCH may name one')
    return int(seconds)
