"""Conditions, calls and memories by the scripts of a page and by the modules of tools/debug, which must agree."""
import json

from debugging import pages
from debugging.compared import compared
from debugging.conditions import Wrong, condition
from debugging.record import Record

COMMON = ['1', '0', 'STEP > 3 and STEP < 9', 'DEPTH > old DEPTH', 'PC changes', 'old old STEP + 2 = STEP', 'not STEP & 3',
          'STEP = 2 or STEP = 4 or 6 = STEP', '((STEP))', '(STEP', 'STEP)', '', ' ', 'STEP ==', 'STEP = = 3', 'STEP <> 3',
          'STEP != 3', 'STEP >= 3', 'STEP <= 3', 'STEP>>0003', 'STEP > >3', '>12345', '65536', '65535', '123456',
          "'A' = 65", "'", "''", "'é'", 'STEP - 5 < 0', '3 - 5 & 15', 'V@>0000 changes', 'V@>3FFF:2', 'V@>0000:4 changes',
          'V@>0000:5', 'V@>0000:0', 'VR1 changes', 'VR7', 'VR8', 'NOSUCH', '@NOSUCH', 'and', 'not', 'old', 'changes',
          'STEP changes changes', 'STEP and', 'or STEP', 'not not STEP', 'STEP\t=\t3', 'STEP .1', '1 2', 'é', '“', 'ST changes',
          '(' * 21 + '1' + ')' * 21, '(' * 19 + '1' + ')' * 19, 'not ' * 25 + '1', 'old ' * 25 + 'STEP',
          '1' + ' ' * 400, '1 or ' * 70 + '1', 'step = 3', 'Step=3 Or sTEP=4', '@', 'V@', '*', '>', ':2', 'STEP:2', '&', '1 &']
GPL = ['COUNT', 'COUNT < 2', 'COUNT:2 changes', 'COUNT.1', 'COUNT.2 changes', 'SUM changes and not COUNT changes',
       '@>8300 = 1', '@>8300:2 = >0100', '@>82FF', '@>83C1', '@>83C1:2', '@>83C2', '@COUNT', '@COUNT.1:2', '@LOOP',
       'PC = LOOP', 'PC = SHOW and DEPTH = 2', 'LOOP', 'LOOP.3 = PC', 'LOOP:2', 'COND', 'not COND', 'H or GT', 'CARRY changes',
       'OVF', 'ST & >20', '*>8372', '*>8372 changes', 'V*>8302 changes', '@>8300(@>8302) changes', 'V@>0000(@>8300) = >48',
       '@>8300(>8302)', '@>8300(@>8302', '*>8302(@>8304)', 'WP', 'R1', 'EQ', 'V@COUNT', 'COUNT.1234', 'count > 1', 'COUNT:',
       'old COUNT > COUNT', 'old (COUNT:2) - COUNT:2', 'COUNT+SUM > 100', 'LGT', '@>FFFF', 'V@>FFFF']
PROCESSOR = ['R1', 'R1 changes', 'R1:1', 'R0 = R1', 'R15', 'R16', 'R01', '*R1', '*R16', '*R1:1', '@>8300', '@>8300 changes',
             '@>8301:1', '@>A000(R1)', '@>A000(R1', '@>A000(@>8300)', 'WP', 'ST', 'EQ', 'C or OV', 'LGT and AGT', 'OP', 'X',
             'PC = LOOP', 'START', 'LOOP.2', 'old R1 > R1', 'R1:2:2', 'V*R1', 'V@START', '@LOOP', '@LOOP.2:2', '@>FFFF:2', 'R1a']

STEPS_WHERE = '''(() => {
    try { return stepsWhere(condition(%s)).map(shownNumber) }
    catch (error) { if (error instanceof Wrong) return error.message; throw error }
})()'''


def steps_or_fault(record, text):
    """The steps at which a condition holds, or what is wrong with it."""
    try:
        return record.where(condition(text, record.names))
    except Wrong as wrong:
        return str(wrong)


def compare(checks, at, page, name):
    """All conditions, the open routines, the values that were compared, and some memories."""
    record = Record(pages.read(str(page)))
    at.open(page.as_uri())
    for text in [*COMMON, *(PROCESSOR if record.is_processor else GPL)]:
        checks.equal(f'{name}: where {text!r}', at.value(STEPS_WHERE % json.dumps(text)), steps_or_fault(record, text))
    numbers = range(record.first, record.last + 1)
    checks.equal(f'{name}: the open routines', at.value(
        'Array.from({length: last + 1}, (_, number) => framesAt(number).reverse().map(it => it.begin + first))'),
        [[frame[0] for frame in record.frames(number)] for number in numbers])
    checks.equal(f'{name}: how many routines are open', at.value('[...depths]'),
                 record.depths[:len(record.steps) + 1])
    checks.equal(f'{name}: what was compared', at.value(
        'Array.from({length: last + 1}, (_, number) => (go(number), comparedValues(number)))'
        '.map(it => it.map(({value, width}) => [value, width]))'),
        [[list(it) for it in values_of(record, number)] for number in numbers])
    for number in sorted({record.first, record.first + len(record.steps) // 2, record.last}):
        checks.equal(f'{name}: the memory after {number}', at.value(
            f'Array.from(memoryAt({number - record.first}), byte).join("")'), record.memory(number).hex().upper())
    return record


def values_of(record, number):
    if number == record.first:
        return []
    return compared(record.step(number).text, record.state(number).old, record.names)
