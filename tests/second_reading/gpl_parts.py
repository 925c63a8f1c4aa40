"""The parts of the second reading of GPL: the assembler, its listing, and the interpreter's steps."""
import functools

from case import Case, Part
import gpl_demo
import gpl_images
from gpl_assembler import Refused, assemble, image_bytes
from gpl_listing import listing, listing_text
from gpl_programs import program, raw_program, short_program
from gpl_report import Run, comparable
from gpl_sources import damaged, source, text_of
from gpl_step import EXIT, Console
from gpl_watching import Item, allowed, watched

USAGE = (b'usage: ti_bench asm|link [NAME ...]|dis ADDR|exec N|gasm|gdis ADDR|interp|run N|trace N|demo K|'
         b'watch N ITEM ...\n')


def assembled(generator):
    """A source, and its image or its first refused line."""
    text = source(generator)
    try:
        status, out, err = 0, image_bytes(assemble(text).image), b''
    except Refused as refused:
        status, out, err = 1, b'', f'{refused}\n'.encode()
    return Case('ti_bench', ('gasm',), text.encode('latin-1'), {}, status, out, err, text.count('\n'))


def console_of(text):
    """The GPL state at the start of a source's run; Refused, or no entry."""
    found = assemble(text)
    if found.entry is None:
        return None
    image = bytearray(0x10000)
    for address, byte in found.image.items():
        image[address] = byte
    return Console(bytes(image), found.entry)


def limit_of(generator):
    return generator.choice((0, 1, 2, 5, 20, 50, 200, 200, 500, 1000, 1000, 3000, 30000))


def given_text(generator):
    """The text of a program, or of a source of any kind."""
    choice = generator.random()
    if choice < 0.1:
        return source(generator)
    make = short_program if choice < 0.3 else raw_program if choice < 0.4 else program
    lines = make(generator)
    return text_of(generator, damaged(generator, lines) if generator.random() < 0.15 else lines)


def ended(run):
    """The status of a run."""
    return 7 if run.stop not in (None, EXIT) else 0


def run_case(words, text, report):
    """A case over a GPL source: its refusal, or what a function of its console gives: the run and its first lines."""
    given = text.encode('latin-1')
    try:
        console = console_of(text)
    except Refused as refused:
        return Case('ti_bench', words, given, {}, 1, b'', f'{refused}\n'.encode(), 0)
    if console is None:
        return Case('ti_bench', words, given, {}, 1, b'', b'no entry\n', 0)
    run, lines = report(console)
    return Case('ti_bench', words, given, {}, ended(run), run.report(lines), b'', run.steps,
                functools.partial(comparable, run=run))


def traced(generator):
    """A source and the trace or the end of its run."""
    command, limit = generator.choice(('trace', 'trace', 'trace', 'run')), limit_of(generator)
    if generator.random() < 0.01:
        words = (command, *generator.choice(((), ('',), ('00',), ('0x1',), ('100001',), ('-1',), ('1', '1'), (' 1',))))
        return Case('ti_bench', words, b' RTN\n END $', {}, 2, b'', USAGE, 0)

    def report(console):
        lines = [] if command == 'trace' else None
        return Run(console, limit, lines), lines or []
    return run_case((command, str(limit)), given_text(generator), report)


def disassembled(generator):
    """Bytes at an address and their listing."""
    data = gpl_images.image(generator)
    address = gpl_images.address(generator, len(data))
    lines = listing(data, address)
    word = format(address, generator.choice(('04X', '04x')))
    if lines is None:
        return Case('ti_bench', ('gdis', word), data, {}, 1, b'', b'past the end of memory\n', 0)
    return Case('ti_bench', ('gdis', word), data, {}, 0, listing_text(lines), b'', len(lines))


def visited(text, limit):
    """Addresses that a source's run comes to."""
    try:
        console = console_of(text)
    except Refused:
        return [0x6000]
    if console is None:
        return [0x6000]
    run, found = Run(console, 0), []
    while run.steps < limit and run.stop is None:
        run.one(None)
        found.append(console.pc)
    return found or [0x6000]


def item(generator, addresses):
    """A watched place, now and then one that is not taken."""
    kind = generator.choice(('pad', 'pad', 'pad', 'vdp', 'pc', 'pc'))
    if kind == 'pc':
        return Item(kind, generator.choice(addresses) if generator.random() < 0.6 else generator.randrange(0x10000), 0)
    if kind == 'pad':
        at = generator.choice((0x8300, 0x8340, 0x8372, 0x837C, 0x837D, 0x83C0, 0x83C1,
                               0x8340 + generator.randrange(0x82)))
        most = 0x83C2 - at
    else:
        at = generator.choice((0, 0x2FF, 0x3F80, 0x3FFF, generator.randrange(0x4000)))
        most = 0x4000 - at
    if generator.random() < 0.015:
        return Item(kind, at, generator.choice((0, most + 1, 65536)))
    return Item(kind, at, min(most, generator.choice((1, 1, 2, 8, 0x4000))))


def item_word(generator, item):
    place = format(item.at, generator.choice(('04X', '04x')))
    return f'pc:{place}' if item.kind == 'pc' else f'{item.kind}:{place}+{item.length}'


def watching(generator):
    """A source, watched places, and the first step that changes or reaches one."""
    text = given_text(generator)
    addresses = visited(text, 300)
    count = generator.choice((1, 1, 2, 3, 8)) if generator.random() < 0.98 else 9
    items = [item(generator, addresses) for _ in range(count)]
    limit = limit_of(generator)
    words = ('watch', str(limit), *(item_word(generator, one) for one in items))
    if not allowed(items):
        return Case('ti_bench', words, text.encode('latin-1'), {}, 2, b'', USAGE, 0)

    def report(console):
        run, first = watched(items, console, limit)
        return run, [first]
    return run_case(words, text, report)


def demonstrated(generator):
    """The summary of 'demo', for a number that it takes or not."""
    blocks = generator.choice((0, 1, 2, 3, 4, 5, 500, 501, *(generator.randrange(1, 501) for _ in range(24))))
    words = ('demo', str(blocks))
    if not 1 <= blocks <= gpl_demo.BLOCKS:
        return Case('ti_bench', words, b'', {}, 2, b'', USAGE, 0)
    found = assemble(gpl_demo.source(blocks))
    run = Run(console_of(gpl_demo.source(blocks)), gpl_demo.STEPS)
    return Case('ti_bench', words, b'', {}, ended(run), gpl_demo.summary(blocks, image_bytes(found.image), run), b'',
                run.steps, functools.partial(gpl_demo.comparable, run=run))


PARTS = {'gasm': Part(assembled, 'lines'), 'gdis': Part(disassembled, 'lines'), 'trace': Part(traced, 'steps'),
         'watch': Part(watching, 'steps'), 'demo': Part(demonstrated, 'steps')}
