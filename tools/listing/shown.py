"""What the program prints of the interpreter's words, where documents and examples show it."""
import re

from lib.repository import TOP, read_text


EXAMPLE = 'examples/interp/expected'
PARTS = ['docs/REPORTS.md', 'examples/interp/README.md']
ROW = 16


def rows(listing):
    """The rows of the report of `interp`, by their addresses."""
    found = {}
    for at in range(listing.origin, listing.behind, ROW):
        words = listing.words[(at - listing.origin) // 2:][:ROW // 2]
        found[at] = f'>{at:04X} ' + ' '.join(f'{word:04X}' for word in words)
    return found


def part(text, listing, found):
    """A text with the rows in it as they are now: the last row for one that was the last, and the entry."""
    entry = f'>{listing.names["GBOOT"]:04X}'
    text = re.sub(r'(entry |from )>2(?!000)[0-9A-F]{3}\b', rf'\1{entry}', text)

    def row(it):
        at = int(it.group(1), 16)
        return found[at] if at < listing.names['TABLE'] + 512 else found[max(found)]

    return re.sub(r'>(2[0-9A-F]{3})(?: [0-9A-F]{4}){2,8}', row, text)


def files(listing):
    found = rows(listing)
    texts = {EXAMPLE: f'entry >{listing.names["GBOOT"]:04X}\n' + ''.join(f'{row}\n' for row in found.values())}
    for path in PARTS:
        texts[path] = part(read_text(TOP / path), listing, found)
    return texts
