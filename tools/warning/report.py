"""All warnings of a GPL source."""
from lib import program
from lib.command import Stopped
from lib.refusals import explanation, lines
from stepping.listing import check_image, listing_of
from warning import condition, stops, ways
from warning.code import Code
from warning.marks import Marks

NAMES = ('stop', 'again', 'data', 'unreached', 'cond', 'overlap')


def overlaps(source, listing):
    """The warnings of cells that have bytes of cells before them."""
    line_of, found = {name.name: name.line for name in listing.names}, []
    for name, at, width in source.cells:
        other = next((it for it in found if it[1] < at + width and at < it[1] + it[2]), None)
        if other:
            yield line_of[name], 'overlap', f'{name} has bytes of {other[0]}, the cells of line {line_of[other[0]]}'
        found.append((name, at, width))


def warnings_of(bench, source, image):
    """The warnings of a source, which is assembled to an image: rows for standard error."""
    debugger = program.Program(program.other(bench.path, 'ti_debug'))
    listed = debugger.run('glist', given=source.text)
    if listed.status:
        raise Stopped(f'the program ended with status {listed.status}', listed.code)
    listing = listing_of(listed.out)
    check_image(listing, image)
    code = Code(bench, listing, image)
    known = condition.known(code)
    found = [*stops.warnings(code), *ways.again(code), *ways.into_data(code, known), *ways.unreached(code),
             *condition.warnings(code, known), *overlaps(source, listing)]
    marks = Marks(source, len(listing.lines), NAMES)
    shown = [it for it in found if not marks.silence(it[0], it[1])]
    texts = lines(source.text)
    for number, name, text in sorted([*shown, *marks.warnings()]):
        yield from source.by_author(explanation(source.path, number, f'warning: {text} [{name}]', texts[number - 1]))
