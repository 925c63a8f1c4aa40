"""A run that is kept as a page of tools/steps."""
import json
import re

from lib import command

MOST_BYTES = 256_000_000
DATA = re.compile(r'<script type="application/json" id="data">(.*?)</script>', re.S)
KEYS = {'kind', 'name', 'end', 'from', 'last', 'layout', 'lines', 'names', 'places', 'words', 'calls', 'texts', 'steps',
        'first'}


def read(path):
    """The data of a page. What a page says was compared with the program when it was made, and is taken as it is."""
    try:
        with open(path, 'rb') as file:
            given = file.read(MOST_BYTES + 1)
    except OSError as error:
        raise command.unreadable(error, path) from None
    if len(given) > MOST_BYTES:
        raise command.Stopped(f'{path}: more than {MOST_BYTES // 1_000_000} MB')
    found = DATA.search(given.decode('utf-8', 'replace'))
    try:
        data = json.loads(found[1]) if found else None
    except ValueError:
        data = None
    if not isinstance(data, dict) or not KEYS <= data.keys():
        raise command.Stopped(f'{path}: no page of a run, or one of another version')
    return data
