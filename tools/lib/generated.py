"""Files that a script writes from other files, and the check that they are what it would write."""
import pathlib
import sys

from lib import output
from lib.command import FAILED, name
from lib.repository import read_text, shown


def options(parser):
    """The option to check and not write."""
    parser.add_argument('--check', action='store_true',
                        help='write nothing; the status is 1 if a file is not what would be written')


def settle(texts, check):
    """Writes the files whose text is another one yet, each by its path, and returns the status; with `check` it only
    names them."""
    old = [path for path, text in texts.items() if not pathlib.Path(path).exists() or read_text(path) != text]
    for path in old:
        if check:
            print(f'{name()}: {shown(path)} is not what would be written', file=sys.stderr)
        else:
            output.write(path, texts[path].encode('utf-8'))
            print(shown(path))
    return FAILED if old and check else 0
