"""What two runs do not have in common, as text."""
from comparing.runs import differing
from lib.dump import Dump
from lib.picture import text_rows
from stepping.places import CELLS, CELLS_END, REGISTERS, VIDEO
from stepping.reports import counted

OLD, NEW = 'old', 'new'


class Reporter:
    """Both sources by their lines, and both runs."""

    def __init__(self, places, old, new):
        self.places, self.runs = places, {OLD: old, NEW: new}
        self.sides = {OLD: places.pairs.old, NEW: places.pairs.new}

    def rows(self, found, end):
        """The report: the first differences, and the rows of what differs in the end."""
        is_one = found.other and found.effect and found.other == found.effect.steps
        if found.other:
            yield 'the first other instruction' + (', with the first other effect:' if is_one else ':')
            yield from self.step_rows(found.other)
        if found.effect:
            if not is_one:
                yield 'the first other effect:'
                yield from self.step_rows(found.effect.steps)
            yield from self.byte_rows(found.effect.bytes)
        if found.parted:
            if found.before:
                yield 'the runs part after these steps:'
                yield from self.step_rows(found.before)
                yield 'and go on:'
            else:
                yield 'the runs part at their beginning:'
            yield from self.step_rows(found.parted)
        if end:
            yield 'in the end:'
            yield from end

    def step_rows(self, steps):
        """A step of each run, if it has one, by its line; or where it has ended."""
        for which, at in zip((OLD, NEW), steps):
            if at:
                place, text = self.line(which, at.address)
                step = f'step {at.number:,}' if at.number else self.runs[which].stream.how
                yield f'  {which}  {place}: {step}: {text}'.rstrip(': ')

    def line(self, which, address):
        """The place and the text of the line at an address; without a line the address and no text."""
        line, author = self.sides[which].line_at(address), self.sides[which].author
        if line is None:
            return f'>{address:04X}', ''
        return author.where(line.number), author.text(line.number).strip()

    def byte_rows(self, found):
        """Bytes that differ, neighbours together."""
        runs = []
        for at, there, old, new in found:
            if runs and (at, there) == (runs[-1][0] + len(runs[-1][2]), runs[-1][1] + len(runs[-1][3])):
                runs[-1][2].append(old)
                runs[-1][3].append(new)
            else:
                runs.append((at, there, bytearray([old]), bytearray([new])))
        for at, there, old, new in runs:
            yield f'  {self.place(at, there)}: {shown(old)} in the old run, {shown(new)} in the new one'

    def place(self, at, there):
        """A place by its name or its address; and by its address in the new run, if that is another one."""
        if at >= REGISTERS:
            return f'W{at - REGISTERS}'
        if at >= VIDEO:
            return f'V>{at - VIDEO:04X}'
        name, more = self.places.named.get(at, ('', 0))
        moved = f', then >{there:04X}' if there != at else ''
        return f'{name}{f".{more}" if more else ""} >{at:04X}{moved}'.strip()

    def end_rows(self):
        """What differs in the memories of both runs."""
        old, new = self.runs[OLD], self.runs[NEW]
        yield from self.byte_rows(differing(self.places, old, new, range(CELLS, CELLS_END)))
        yield from self.byte_rows(differing(self.places, old, new, range(REGISTERS, REGISTERS + 8)))
        video = list(differing(self.places, old, new, range(VIDEO, REGISTERS)))
        if video:
            first = list(self.byte_rows(video))[0].strip()
            yield f'  video memory: {counted(len(video), "byte")}, the first {first}'
        screens = [list(text_rows(dump_of(run.memory))) for run in (old, new)]
        for number, (row, other) in enumerate(zip(*screens)):
            if row != other:
                yield f'  screen, row {number:2}: old |{row}|'
                yield f'                  new |{other}|'


def shown(data):
    """Bytes in hexadecimal, the first of many."""
    return '>' + data[:8].hex(',').upper() + ',..' * (len(data) > 8)


def dump_of(memory):
    """A memory as the end of a report shows it."""
    return Dump(bytes(memory[CELLS:CELLS + 0x100]), bytes(memory[VIDEO:REGISTERS]),
                bytes(memory[REGISTERS:REGISTERS + 8]))


def run_rows(paths, runs, names):
    """How both runs ended, what each did alone, and which names of cells each source has alone."""
    for path, run, alone in zip(paths, runs, names):
        steps = f' {counted(run.alone)} on lines of this source alone.' if run.alone else ''
        cells = f' Not compared: {", ".join(alone)}.' if alone else ''
        yield f'{path}: {run.stream.end}{steps}{cells}'
