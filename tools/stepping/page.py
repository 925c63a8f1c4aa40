"""The page of a run: one HTML file that holds its style, its script and its data."""
import html
import json
import pathlib
import re

from debugging.calls import GplFrames, ProcessorFrames, ended, taken
from debugging.sizes import gpl_places, processor_places
from expanding.lines import operation_of
from lib.languages import ASSEMBLER, DIRECTIVES, GPL
from lib.repository import read_text
from stepping import places, processor
from stepping.run import Step

HERE = pathlib.Path(__file__).resolve().parent / 'page'
SCRIPTS = ['model', 'names', 'view', 'focus', 'source', 'coverage', 'steps', 'calls', 'words', 'conditions', 'compared',
           'where', 'state', 'bytes', 'screen', 'registers', 'controls']
# what a line is in the page: no instruction and no data, an instruction, data
NOTHING, CODE, PLAIN = range(3)


def shown(data):
    """The bytes of a line as text: UTF-8 where they are, else a character for each byte."""
    try:
        return data.decode('utf-8')
    except UnicodeDecodeError:
        return data.decode('latin-1')


def numbered(texts, text):
    """The number of a text among those that were met."""
    return texts.setdefault(text, len(texts))


def named_of(listing, cells, sizes):
    """What names mean in a GPL source: their values, and the places and the bytes of those that name memory, with the
    cells that blocks of the source lay out; and the places of words."""
    names, written = [(name.name, name.value) for name in listing.names], [shown(line.text) for line in listing.lines]
    return {'names': [list(name) for name in listing.names], 'words': sizes.words,
            'places': [list(place) for place in gpl_places(names, written, cells, sizes)]}


def named_of_processor(lines, names):
    """The same of a program of the processor."""
    return {'names': [[*name, 0] for name in dict.fromkeys(names)], 'words': [],
            'places': [list(place) for place in processor_places(names, lines)]}


def data_of(name, run, listing, named):
    """All that the script of the page is given of a GPL program, of which the names are given."""
    texts = {}
    steps = [[step.address, numbered(texts, step.text), *map(packed, step.changes)] for step in run.steps]
    pointer = byte_after(run, places.RETURN_STACK)
    calls = ended(run.calls or taken(GplFrames(), run.steps), Step(0, run.last, (0, 0, pointer), '', []))
    return {'kind': GPL, **common(name, run), 'last': {'at': run.last}, 'over': run.reason is not None, **named,
            'lines': list(lines_of(listing.lines)), 'code': kinds_of(listing.lines, GPL), **called(calls),
            'texts': list(texts), 'steps': steps}


def data_of_processor(name, run, lines, named):
    """The same of a run of the processor, with the lines of its sources, if there are any."""
    texts = {}
    steps = [[step.before.pc, numbered(texts, step.text), step.before.wp, step.before.st, *map(packed, step.changes)]
             for step in run.steps]
    calls = ended(run.calls or taken(ProcessorFrames(lines), run.steps), processor.Step(0, run.last, '', []))
    return {'kind': 'exec', **common(name, run), 'last': {'at': run.last.pc, 'wp': run.last.wp, 'st': run.last.st},
            'over': run.stopped, **named, 'lines': list(lines_of(lines)), 'code': kinds_of(lines, ASSEMBLER),
            **called(calls), 'texts': list(texts), 'steps': steps}


def common(name, run):
    return {'name': name, 'end': run.end, 'stopped': run.stopped, 'from': run.begin, 'layout': layout(),
            'first': [packed(change) for change in run.first]}


def layout():
    """Where the parts of the memory lie in the one space of addresses; the page has no other numbers of its own."""
    return {'video': places.VIDEO, 'registers': places.REGISTERS, 'end': places.END, 'cells': places.CELLS,
            'cellsEnd': places.CELLS_END, 'padEnd': places.PAD_END, 'dataStack': places.DATA_STACK,
            'returnStack': places.RETURN_STACK, 'status': places.STATUS,
            'latches': {name: list(latch) for name, latch in places.LATCHES.items()}}


def called(calls):
    """The calls of a run, and what its routines took: of each its address, its own steps, those with the routines that
    it called, and how often it was called."""
    return {'calls': [list(frame) for frame in calls.frames],
            'routines': [[it.address, it.steps, it.whole, it.calls] for it in calls.routines]}


def byte_after(run, place):
    """A byte of the memory after the last step."""
    for changes in (*(step.changes for step in reversed(run.steps)), run.first):
        for at, digits, times in reversed(changes):
            data = bytes.fromhex(digits) * times
            if at <= place < at + len(data):
                return data[place - at]
    return 0


def lines_of(lines):
    """The lines: text, address and bytes, and what a line is called, if that is not its number among them."""
    for number, line in enumerate(lines, 1):
        row = [shown(line.text), line.address, line.data.hex()]
        called = getattr(line, 'name', None)
        yield row if called is None or called == str(number) else [*row, called]


def kinds_of(lines, language):
    """What each line is, as a digit. A line with bytes that is no directive is an instruction, or the use of a macro."""
    return ''.join(str(NOTHING if not line.data else PLAIN if operation_of(line.text.decode('latin-1'))
                       in DIRECTIVES[language] else CODE) for line in lines)


def packed(change):
    """A change as the script reads it: its place, its bytes, and how often they stand there, if more than once."""
    at, digits, times = change
    return [at, digits] if times == 1 else [at, digits, times]


def page(data):
    """The page. No text of the source or of a name can end the element that it is in, and none is taken for a part of
    the page's own text."""
    parts = {'title': html.escape(data['name']), 'style': read_text(HERE / 'page.css'),
             'script': '\n'.join(read_text(HERE / f'{part}.js') for part in SCRIPTS),
             'data': json.dumps(data, separators=(',', ':'), ensure_ascii=False).replace('<', '\\u003c')}
    return re.sub(r'\{\{(\w+)\}\}', lambda it: parts[it[1]], read_text(HERE / 'page.html'))
