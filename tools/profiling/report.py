"""A profile as text: the report, the annotated listing, and the stacks that flame graphs are made of."""
import itertools

from profiling.routines import nodes, routines

HOTTEST = 10
# the marks of a line in the listing
NEVER, DATA = '!', '?'


def percent(part, whole):
    return f'{100 * part / whole:5.1f}' if whole else '  0.0'


def row_of(author, it):
    """A line with its place."""
    return f'{author.where(it.line.number)}: {author.text(it.line.number).strip()}'


def report(profile):
    """The rows of the report."""
    lines = list(profile.counts.lines())
    yield profile.end
    yield from covered_rows(lines)
    yield from wild_rows(profile, lines)
    yield from routine_rows(profile)
    yield from hottest_rows(profile, lines)
    if profile.boot is not None:
        yield from dearest_rows(profile, lines)
    yield from never_rows(profile, lines)
    if profile.deepest:
        yield from stack_rows(profile)


def covered_rows(lines):
    """How many of the lines of code were executed, and how many ways their branches went."""
    code = [it for it in lines if it.is_code]
    both = [times for it in code if it.branch for times in it.branch]
    ways = f'; {sum(times > 0 for times in both):,} of {len(both):,} ways of branches' if both else ''
    yield f'{sum(it.reached > 0 for it in code):,} of {len(code):,} lines of code executed{ways}'


def wild_rows(profile, lines):
    """What was executed that is no instruction of a line."""
    wild, outside = [it for it in lines if it.wild], profile.counts.outside()
    if wild or outside:
        yield 'data that were executed, with how often:'
    for it in wild:
        what = ' (not at its beginning)' if it.is_code else ''
        yield f'{it.wild:9,}  {row_of(profile.author, it)}{what}'
    for address, times in outside:
        yield f'{times:9,}  >{address:04X}, where no line has a byte'


def routine_rows(profile):
    """The routines, by their own steps."""
    found, total = routines(profile.calls), profile.steps
    measured = profile.boot is not None
    yield 'routines, by their own steps:'
    yield '      own      %     whole    calls' + '  instructions     whole' * measured + '  routine'
    places = {line.address: line.number for line in profile.counts.listing.lines if line.data}
    for it in found:
        number = places.get(it.address)
        where = f' {profile.author.where(number)}' if number else ''
        costs = f'{it.instructions:14,}{it.whole_instructions:10,}' if measured else ''
        yield (f'{it.steps:9,}  {percent(it.steps, total)} {it.whole:9,}{it.calls:9,}{costs}  '
               f'{profile.author.name(it.address)}{where}')
    if measured:
        yield f'{"":34}{profile.boot:14,}  before the first step'


def hottest_rows(profile, lines):
    """The lines with the most steps."""
    hottest = sorted((it for it in lines if it.steps), key=lambda it: -it.steps)[:HOTTEST]
    if hottest:
        yield 'lines with the most steps:'
    for it in hottest:
        yield f'{it.steps:9,}  {percent(it.steps, profile.steps)}  {row_of(profile.author, it)}'


def dearest_rows(profile, lines):
    """The lines with the most instructions of the processor, with how many a step took."""
    total = sum(it.cost for it in lines)
    dearest = sorted((it for it in lines if it.cost), key=lambda it: -it.cost)[:HOTTEST]
    if dearest:
        yield 'lines with the most instructions, and how many for a step:'
    for it in dearest:
        each = f'{it.cost / (it.reached + it.inside):,.1f}'
        yield f'{it.cost:14,}  {percent(it.cost, total)} {each:>10}  {row_of(profile.author, it)}'


def never_rows(profile, lines):
    """The lines of code that were not executed: the first of each stretch, and how many they are up to the next one
    that was."""
    code = [it for it in lines if it.is_code]
    stretches = [list(found) for is_reached, found in itertools.groupby(code, lambda it: it.reached > 0)
                 if not is_reached]
    if stretches:
        yield 'lines of code that were never executed, by the first of each stretch:'
    yield from (f'{len(found):9,}  {row_of(profile.author, found[0])}' for found in stretches)


def stack_rows(profile):
    """How deep both stacks were."""
    lines = {line.address: line.number for line in profile.counts.listing.lines if line.data}
    yield 'deepest stacks:'
    for stack, (value, step) in profile.deepest.found.items():
        count = (value - profile.deepest.first[stack]) // stack.size
        where = f', at step {step.number:,}' if step else ''
        number = step and lines.get(step.address)
        yield f'{count:9,}  {stack.name}{where}' + (f': {profile.author.where(number)}' if number else '')


def listing_rows(profile):
    """Each line that was read, with how often it was executed and the ways that it went."""
    counted, author = {it.line.number: it for it in profile.counts.lines()}, profile.author
    lines = profile.counts.listing.lines
    places = [author.where(line.number) for line in lines]
    width = max(map(len, places), default=0)
    for line, place in zip(lines, places):
        it = counted.get(line.number)
        mark, times, ways = columns(it)
        cost = '' if profile.boot is None else f'{it.cost:>14,}' if it and times else f'{"":14}'
        yield f'{mark:1}{times:>9}{cost} {ways:>11}  {place:{width}} {author.text(line.number)}'.rstrip()


def columns(it):
    """The mark, the count and the ways of a line."""
    if it is None or not (it.is_code or it.wild):
        return '', '', ''
    if it.wild:
        return DATA, f'{it.reached + it.inside:,}', ''
    if not it.reached:
        return NEVER, '0', ''
    ways = f'{it.ways} ways' if it.ways > 1 else '1 way' if it.ways else ''
    if it.branch:
        ways = f'{it.branch.taken:,}/{it.branch.passed:,}'
    return NEVER if it.branch and 0 in it.branch else '', f'{it.reached:,}', ways


def folded_rows(profile):
    """A row for each stack of routines: their names, and its steps or the instructions that they took."""
    if profile.calls.root:
        for node in nodes(profile.calls.root):
            weight = node.steps if profile.boot is None else node.instructions
            if weight:
                yield ';'.join(map(profile.author.name, node.path())) + f' {weight}'
