"""Pages of object text: instructions of the processor, with sources and without."""
import subprocess

import page_words
from lib.dump import dump
from lib.repository import TOP
from page_checks import CELLS, MARKED, differing

MACHINE = b"START LI R1,3\nLOOP DEC R1\n MOV R1,@>8300\n JNE LOOP\n JMP $\n END START\n"
MACHINE_LINES = ['1', *['2', '3', '4'] * 3, '5']


def of_the_processor(checks, at, folder, bench):
    """A page of object text with the lines of its source: each step has its line, and the scratchpad that `exec`
    writes."""
    source, page = folder / 'machine.asm', folder / 'machine.html'
    source.write_bytes(MACHINE)
    objects = bench.run('asm', given=MACHINE).out
    (folder / 'machine.obj').write_bytes(objects)
    left = subprocess.run([TOP / 'tools/steps', '--program', bench.path, '--exec', '--source', source, '-o', page,
                           folder / 'machine.obj'], capture_output=True)
    checks.equal('a page of the processor', (left.returncode, left.stderr), (0, b''))
    at.open(page.as_uri())
    checks.equal('the lines of its steps', at.value('steps.map(it => lines[lineOf[it.at]].name)'), MACHINE_LINES)
    before = None
    for number in range(len(MACHINE_LINES) + 1):
        at.value(f'go({number})')
        state = dump(bench.run('exec', str(number), given=objects).out.decode('latin-1'))
        checks.equal(f'the scratchpad after instruction {number}', bytes.fromhex(at.value(CELLS)), state.pad)
        checks.equal(f'what is marked after instruction {number}', at.value(MARKED % 'cells'),
                     differing(0x8300, (before or state).pad, state.pad))
        before = state
    checks.equal('the name of an address', at.value(f'codeName({0xA004})'), '>A004 LOOP line 2')
    registers_are_words(checks, at)


def registers_are_words(checks, at):
    """A register is shown and chosen as a word: R1, which the second instruction makes 2 of 3."""
    at.value('go(2)')
    checks.equal('the step in words', 'changed R1 0003→0002 ' in at.value("find('made').textContent"), True)
    at.click('#stacks tr:nth-child(3) td button')
    checks.equal('the register that is chosen', at.value("find('chosen').firstChild.textContent"),
                 'word at R1 >83E2 is >0002, 2; changed in 4 steps:')
    checks.equal('the registers that are marked', at.value(
        "[...document.querySelectorAll('#stacks td.changed')].map(it => it.textContent)"), ['>0002'])
    at.value('setWord(false)')


# executes two other instructions at PLACE, one after the other
CHANGED = b"START LI R1,>0582\n MOV R1,@PLACE\nPLACE NOP\n LI R1,>0602\n B @START+4\n END START\n"


def without_a_source(checks, at, folder, bench):
    """An address at which several instructions were executed is shown with the one of its moment."""
    page = folder / 'changed.html'
    (folder / 'changed.obj').write_bytes(bench.run('asm', given=CHANGED).out)
    subprocess.run([TOP / 'tools/steps', '--program', bench.path, '--exec', '-o', page, folder / 'changed.obj', '9'],
                   check=True)
    at.open(page.as_uri())
    for number, text in ((3, 'INC R2'), (6, 'INC R2'), (7, 'DEC R2'), (1, 'INC R2')):
        at.value(f'go({number})')
        checks.equal(f'the instruction at PLACE after {number}',
                     at.value("document.querySelectorAll('#source tr')[2].lastChild.textContent"), text)


def changed_code(checks, at, folder, bench):
    """A line whose words the program has changed is shown with the instruction that is there at the moment."""
    page = folder / 'changed.html'
    (folder / 'changed.asm').write_bytes(CHANGED)
    subprocess.run([TOP / 'tools/steps', '--program', bench.path, '--exec', '--source', folder / 'changed.asm', '-o', page,
                    folder / 'changed.obj', '9'], check=True)
    at.open(page.as_uri())
    for number, text in ((1, 'PLACE NOP'), (2, 'PLACE NOP   now: INC R2'), (3, 'PLACE NOP   now: INC R2'),
                         (4, 'PLACE NOP   now: 0582'), (6, 'PLACE NOP   now: DEC R2'), (0, 'PLACE NOP')):
        at.value(f'go({number})')
        checks.equal(f'PLACE after {number}', at.value("document.querySelectorAll('#source tr')[2].lastChild.textContent"),
                     text)


# compares bytes and words, and has names of data
COMPARING = b"""START LI R1,BYTES
 LI R2,WORDS
 CB *R1+,*R1
 C *R2+,@>8300
 CI R1,>0003
 C *R2,*R2+
 JMP $
BYTES BYTE 5,200
WORDS DATA 1000,7
ROOM BSS 4
 END START
"""


def comparisons(checks, at, folder, bench):
    """What was compared is said; and names of DATA, BYTE and BSS are rows with their lengths."""
    source, page = folder / 'compare.asm', folder / 'compare.html'
    source.write_bytes(COMPARING)
    (folder / 'compare.obj').write_bytes(bench.run('asm', given=COMPARING).out)
    subprocess.run([TOP / 'tools/steps', '--program', bench.path, '--exec', '--source', source, '-o', page,
                    folder / 'compare.obj'], check=True)
    at.open(page.as_uri())
    for number, text in ((3, ''), (4, 'compared >03E8 (1000) with >0000 (0)'), (5, 'with >0003 (3)'),
                         (6, 'compared >0007 (7) with >0007 (7)')):
        at.value(f'go({number})')
        shown = at.value("find('made').textContent")
        checks.equal(f'what {number} compared', text in shown and ('compared' in shown) == bool(text), True)
    checks.equal('named memory', at.value('namedRows.map(it => [it.name, it.size])'),
                 [['BYTES', 2], ['WORDS', 4], ['ROOM', 4]])
    page_words.compare(checks, at, page, 'comparing')
