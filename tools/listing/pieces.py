"""The pieces of the interpreter: the functions that run one, and the ways through the words of each."""
import re

from lib.repository import TOP, read_text

from .assembler import value

ENDS = ['GSTEP', 'GSTOP', 'GEXIT']
TABLES = {'GSTEP': 'the entry of TABLE', 'GO': 'the entry of OPTAB'}


class Piece:
    """A function that runs a stretch of the words, with what the words say of it."""

    def __init__(self, listing, crate, file, function, label, ends):
        self.crate, self.file, self.function, self.label = crate, file, function, label
        self.place, self.declared = listing.names[label], ends
        self.ways = list(ways(listing, self.place, ends))
        by_place = {line.place: line for way in self.ways for line in way[0]}
        self.lines = [line for _, line in sorted(by_place.items())]

    @property
    def most(self):
        return max(len(way[0]) for way in self.ways)

    @property
    def exits(self):
        """Where it ends, each with the address in register 11, in the order of the code."""
        found = {(end, link) for _, end, link in self.ways}
        order = ['R11', 'R4'] + self.declared + ENDS
        return sorted(found, key=lambda exit: (order.index(exit[0]), exit[1] or ''))

    @property
    def ends(self):
        names = {'R4': TABLES.get(self.label)}
        return list(dict.fromkeys(names.get(end, end) for end, _ in self.exits))


def ways(listing, place, ends):
    """Each way from a place: its lines, the label of its end, and that of the address in register 11."""
    by_place = {line.place: line for line in listing.lines if line.words}
    stops = {listing.names[label]: label for label in ends + ENDS}

    def follow(at, link, passed):
        line = by_place[at]
        passed = passed + [line]
        if len(passed) > 16:
            raise SystemExit(f'tools/interpreter: more than 16 instructions from >{place:04X}')
        behind, op, operands = at + 2 * len(line.words), line.operation, line.operands
        if op == 'LI' and operands[0] == 'R11':
            link = listing.label_at(value(operands[1], listing.names))
        if op == 'BL':
            link = listing.label_at(behind)
        if op == 'B' and operands[0].startswith('*'):
            yield passed, operands[0][1:], link
            return
        if op in ('B', 'BL'):
            targets = [value(operands[0][1:], listing.names)]
        elif op.startswith('J'):
            target = value(operands[0], listing.names)
            targets = [target] if op == 'JMP' else [behind, target]
        else:
            targets = [behind]
        for target in targets:
            if target in stops:
                yield passed, stops[target], link
            else:
                yield from follow(target, link, passed)

    yield from follow(place, None, [])


def functions(listing):
    """All pieces, by their label."""
    found = {}
    for path in sorted((TOP / 'crates').glob('sim_*/src/*.rt')):
        text = read_text(path)
        for part in re.split(r'(?=^(?:pub )?fn )', text, flags=re.M)[1:]:
            run = re.search(r'run_piece\(machine, steps, &\[(.*?)\]\)', part)
            if not run or path.name == 'run.rt':
                continue
            function = re.match(r'(?:pub )?fn (\w+)', part).group(1)
            label = re.search(r'IsAt machine\.old (?:address\.)?(\w+)', part).group(1)
            ends = [it.strip() for it in run.group(1).split(',') if it.strip()]
            if label in found:
                raise SystemExit(f'tools/interpreter: two pieces from {label}')
            found[label] = Piece(listing, path.parts[-3], str(path.relative_to(TOP)), function, label, ends)
    return found
