"""The second reading of the processor in place of the programs: as it is, or with one of its rules turned into a wrong
one, which the comparison has to notice."""
import pathlib
import sys
import typing

from lib.program import Run


class Rule(typing.NamedTuple):
    """A line of the second reading that is turned, and the part that has to notice it."""
    file: str
    old: str
    new: str
    part: str


WRONG = {
    'carry_of_subtraction': Rule('tms_flags.py', 'if left >= right:', 'if left > right:', 'instructions'),
    'byte_operand': Rule('tms_memory.py', 'return self.bytes[address]', 'return self.bytes[address & 0xFFFE]',
                         'instructions'),
    'video_address': Rule('tms_memory.py', 'self.address = (byte & 0x3F) << 8 | held',
                          'self.address = (held & 0x3F) << 8 | byte', 'ports'),
    'grom_address': Rule('tms_memory.py', 'self.counter = self.counter << 8 & 0xFF00 | self.counter & 0xFF',
                         'self.counter = self.counter & 0xFF00 | self.counter >> 8', 'ports'),
}
RIGHT = 'right'
# the parts in which a model stands in place of the programs
PARTS = ('operands', 'instructions', 'ports')


def turned(text, rule):
    """A text with the line of a rule turned, which stands in it once."""
    lines = text.splitlines()
    places = [number for number, line in enumerate(lines) if line.strip() == rule.old]
    if len(places) != 1:
        raise ValueError(f'{rule.file}: the line {rule.old} is there {len(places)} times')
    lines[places[0]] = lines[places[0]].replace(rule.old, rule.new)
    return '\n'.join([*lines, ''])


def copied(reading, name, folder):
    """Copies the second reading from a folder into another, with the rule of a wrong model turned."""
    rule = WRONG.get(name)
    for path in pathlib.Path(reading).glob('*.py'):
        text = path.read_text('utf-8')
        pathlib.Path(folder, path.name).write_text(turned(text, rule) if rule and rule.file == path.name else text,
                                                   'utf-8')


def lines_of(cpu, limit, name_of):
    """The lines of the instructions of a run, as `steps` writes them, up to their operations."""
    while cpu.count < limit:
        at, before = cpu.counter, (cpu.workspace, cpu.status)
        word = cpu.memory.bytes[at] << 8 | cpu.memory.bytes[at + 1]
        end = cpu.run(1)
        if end not in ('end limit', 'end self jump'):
            return
        yield f'{cpu.count} >{at:04X} WP{before[0]:04X} ST{before[1]:04X} {name_of(word)}'
        if end == 'end self jump':
            return


class Model:
    """The second reading in a folder, with the words of a command line that the comparison uses."""

    def __init__(self, folder):
        sys.path.insert(0, str(folder))
        import tms_copied
        import tms_dump
        import tms_processor
        import tms_runs
        self.assembled, self.runs = tms_copied.report, tms_runs
        self.shown, self.decoded = tms_dump, tms_processor.DECODED

    def run(self, command, *words, given=b''):
        """What a command writes for an input."""
        if command == 'asm':
            return Run(*self.assembled(given, {}))
        if command == 'link':
            return Run(*self.runs.link_report(given))
        if command == 'exec':
            return Run(*self.runs.exec_report(given, int(words[0]))[:3])
        found, fault = self.runs.linked([('', given)])
        if not found:
            return Run(1, b'', fault)
        return Run(0, self.steps(self.runs.machine(found), int(words[0])), b'')

    def steps(self, cpu, limit):
        """The lines of a run, the dump, and the expansion memory."""
        lines = [*lines_of(cpu, limit, lambda word: self.decoded[word][1])]
        memory = bytes(cpu.memory.bytes)
        lines += [*self.shown.dump(cpu), 'low', *self.shown.rows(memory[0x2000:0x4000], 0x2000), 'high',
                  *self.shown.rows(memory[0xA000:], 0xA000)]
        return ''.join(f'{line}\n' for line in lines).encode()
