"""What a page of tools/steps must show after each step, by the states that `run` of ti_bench writes."""
import subprocess
import time

from lib import command
from lib.dump import dump
from lib.repository import TOP

OPENS = 1.0
CELLS = "[...document.querySelectorAll('#cells button')].map(it => it.textContent).join('')"
VIDEO = "[...document.querySelectorAll('#video button')].map(it => it.textContent).join('')"
REGISTERS = "[...document.querySelectorAll('#registers td:nth-child(2)')].map(it => it.textContent.slice(1)).join('')"
NUMBER = "+document.getElementById('number').value"
# the step and what is chosen in the address, which is written a moment after the last of a row of steps
ADDRESS = 'new Promise(done => setTimeout(() => done(location.hash), 150))'
# the places of the bytes that are marked as changed
MARKED = "[...document.querySelectorAll('#%s button.changed')].map(it => +it.dataset.at)"
# opens what is folded, and draws it
UNFOLD = "for (const it of document.querySelectorAll('details.part')) it.open = true; go(now)"
ENTER = '''(() => {
    const it = document.getElementById('%s')
    it.value = '%s'
    it.dispatchEvent(new Event('change'))
})()'''
# the first line with steps whose row is wholly in view, and the middle of its number
LINE_IN_VIEW = '''(() => {
    const box = document.getElementById('scroll').getBoundingClientRect()
    for (const row of document.querySelectorAll('#source tr.runs')) {
        const {left, top, width, height} = row.cells[1].getBoundingClientRect()
        if (top > box.top && top + height < box.bottom)
            return [row.getAttribute('aria-rowindex') - 1, left + width / 2, top + height / 2]
    }
})()'''


class Checks:
    """How many checks were made, and how many failed."""

    def __init__(self):
        self.made = self.bad = 0

    def equal(self, what, got, wanted):
        self.made += 1
        if got != wanted:
            self.bad += 1
            print(f'{what}: {got!r} in place of {wanted!r}')


def maker(bench):
    """What makes a page of a source in a folder."""
    def made(name, source, folder, *words):
        path, page = folder / name, folder / f'{name}.html'
        path.write_bytes(source)
        left = subprocess.run([TOP / 'tools/steps', '--program', bench.path, '-o', page, path, *map(str, words)],
                              capture_output=True)
        if left.returncode:
            raise command.Stopped(f'tools/steps {name}: {left.stderr.decode().strip()}')
        return page
    return made


class Page:
    """A page of a program in the browser."""

    def __init__(self, checks, at, bench, name, source, page):
        self.checks, self.at, self.bench = checks, at, bench
        self.name, self.source, self.address = name, source, page.as_uri()
        self.last, self.states = None, {}

    def state(self, number):
        if number not in self.states:
            report = self.bench.run('run', str(number), given=self.source).out
            self.states[number] = dump(report.decode('latin-1'))
        return self.states[number]

    def check(self, what, got, wanted):
        self.checks.equal(f'{self.name}: {what}', got, wanted)

    def key(self, key):
        """Presses a key, as a person does: a large letter with Shift."""
        self.at.key(key, key if len(key) == 1 else '\r' if key == 'Enter' else '', shift=len(key) == 1 and key.isupper())

    def shows(self, number):
        """The page is after this step, and shows its state."""
        self.check('the step', self.at.value(NUMBER), number)
        state, before = self.state(number), self.state(max(0, number - 1))
        self.check(f'cells after {number}', bytes.fromhex(self.at.value(CELLS)), state.pad[:0xC2])
        self.check(f'cells that are marked after {number}', self.at.value(MARKED % 'cells'),
                   differing(0x8300, before.pad[:0xC2], state.pad))
        self.check(f'registers after {number}', bytes.fromhex(self.at.value(REGISTERS)), state.registers)
        origin = int(self.at.value("document.getElementById('video-from').value"), 16)
        shown = bytes.fromhex(self.at.value(VIDEO))
        self.check(f'video memory after {number}', shown, (state.vdp * 2)[origin:origin + len(shown)])
        changed = differing(0x10000, before.vdp, state.vdp)
        self.check(f'video memory that is marked after {number}', sorted(self.at.value(MARKED % 'video')),
                   [it for it in changed if (it - origin) % 0x4000 < len(shown)])
        self.check(f'text after {number}', self.at.value("document.getElementById('text').textContent"), text(state))

    def opened(self):
        before = self.at.processor_time()
        self.at.open(self.address)
        self.check('it opens in time', self.at.processor_time() - before < OPENS, True)
        self.last = int(self.at.value("+document.getElementById('slider').max"))
        self.at.value(UNFOLD)
        self.shows(0)

    def keys(self):
        for key, number in (('ArrowRight', 1), ('s', 2), ('S', 1), ('End', self.last), ('ArrowLeft', self.last - 1),
                            ('Home', 0), ('ArrowLeft', 0)):
            self.key(key)
            self.shows(number)
        self.at.key('ArrowRight', shift=True)
        self.shows(min(10, self.last))

    def buttons(self):
        for button, number in (('home', 0), ('forward', 1), ('forward', 2), ('back', 1), ('last', self.last)):
            self.at.click(f'#{button}')
            self.shows(number)

    def every_step(self, most=60):
        """Forward and back, each step."""
        numbers = range(0, self.last + 1, max(1, self.last // most))
        for number in [*numbers, *reversed(numbers)]:
            self.at.value(f"(() => {{ const it = document.getElementById('slider'); it.value = {number}; "
                          "it.dispatchEvent(new Event('input')) })()")
            self.shows(number)

    def fragment(self):
        middle = self.last // 2
        self.at.value(f"location.hash = '#step={middle}&at=8302&word'")
        time.sleep(0.1)
        self.shows(middle)
        chosen = self.at.value("[...document.querySelectorAll('#cells button.chosen')].map(it => it.dataset.at).join()")
        self.check('the chosen word', chosen, f'{0x8302},{0x8303}')
        self.check('the address', self.at.value(ADDRESS), f'#step={middle}&at=8302&word')
        for word in ('V3FFF', 'VR7', '83C1', 'VR0'):
            self.at.value(f"location.hash = '#step={middle}&at={word}&word'")
            time.sleep(0.1)
            self.check(f'no word begins at {word}', self.at.value(ADDRESS), f'#step={middle}&at={word}')
            self.at.value('setWord(true)')
            self.check(f'no word begins at {word}', self.at.value(ADDRESS), f'#step={middle}&at={word}')
        self.at.value('setWord(false)')
        for number, wanted in (('x', middle), ('-1', middle), ('999999', self.last)):
            self.at.value(f"location.hash = '#step={number}'")
            time.sleep(0.1)
            self.check(f'the step {number}', self.at.value(NUMBER), wanted if number != 'x' else wanted)

    def fields(self):
        """A field with what is no number has again what it had, and the page stays where it is."""
        middle = self.last // 2
        for given, number in ((str(middle), middle), ('', middle), ('1e1', middle), ('-1', middle), ('1.5', middle)):
            self.at.value(ENTER % ('number', given))
            self.shows(number)
        for given, shown in (('0123', '0120'), ('xyz', '0120'), ('', '0120'), ('4000', '0120'), ('>3FF0', '3FF0')):
            self.at.value(ENTER % ('video-from', given))
            self.check(f'from {given}', self.at.value("document.getElementById('video-from').value"), shown)

    def lines(self):
        """A click on a line goes to its next step, and its line is marked."""
        self.key('Home')
        line, x, y = self.at.value(LINE_IN_VIEW)
        self.at.click_at(x, y)
        number = self.at.value(NUMBER)
        self.check('a click on a line goes to its step', self.at.value(f'lineOf[steps[{number} - 1].at]'), line)
        self.shows(number)
        self.check('the line is marked',
                   self.at.value("document.querySelector('#source tr.made').getAttribute('aria-rowindex')"),
                   str(line + 1))

    def history(self):
        """A byte that is chosen has its steps, and a second click goes to the last of them."""
        self.at.value(f"location.hash = '#step={self.last}&at=8300'")
        time.sleep(0.1)
        cell = '#cells button[data-at="33651"]'
        self.at.click(cell)
        shown = self.at.value("[...document.querySelectorAll('#chosen button')].map(it => it.textContent).join()")
        wanted = steps_that_change(self.bench, self.source, self.last, 0x8373)
        self.check('the history', [int(it) for it in shown.split(',') if it], wanted[-40:])
        if wanted:
            self.at.click(cell)
            self.shows(wanted[-1])
            self.key('Home')
            self.key('n')
            self.shows(wanted[0])

    def search(self):
        """The search goes to the next step with a text, and after the last to the first."""
        wanted = self.at.value('steps.at(-1).text')
        self.key('Home')
        self.key('/')
        self.at.type(wanted)
        self.key('Enter')
        number = self.at.value(NUMBER)
        texts = self.at.value(f'steps[{number} - 1].text + " " + lines[lineOf[steps[{number} - 1].at]]?.text')
        self.check('what is found', wanted.lower() in texts.lower(), True)
        self.shows(number)
        found = self.at.value("document.getElementById('hits').textContent")
        self.at.value('go(0)')
        self.check('how many are found', self.at.value("document.getElementById('hits').textContent"),
                   f'{found.split()[-1]} found')
        self.key('Escape')

    def play(self):
        self.key('Home')
        self.at.value("document.getElementById('speed').value = '500'")
        self.key(' ')
        time.sleep(0.8)
        self.key(' ')
        number = self.at.value(NUMBER)
        time.sleep(0.1)
        self.check('it plays, and pauses', 0 < number == self.at.value(NUMBER), True)
        self.shows(number)

    def theme(self):
        """The theme changes, and the page has it again when it is opened again."""
        colour = 'getComputedStyle(document.body).backgroundColor'
        before = self.at.value(colour)
        self.at.click('#theme')
        after = self.at.value(colour)
        self.check('the theme changes', before != after, True)
        self.at.open(self.address)
        self.check('the theme is kept', self.at.value(colour), after)
        self.at.click('#theme')

    def all(self):
        for part in (self.opened, self.keys, self.buttons, self.every_step, self.fragment, self.fields, self.lines,
                     self.history, self.search, self.play, self.theme):
            part()


def text(state):
    """The screen as text, as tools/screen shows it."""
    columns, at = 40 if state.registers[1] >> 3 & 3 == 2 else 32, state.registers[2] % 16 * 1024
    rows = [(state.vdp * 2)[at + columns * row:][:columns] for row in range(24)]
    return ''.join(''.join(chr(byte) if 32 <= byte < 127 else '.' for byte in row) + '\n' for row in rows)


def differing(first, before, after):
    """The places from a first one on whose bytes are others than before."""
    return [first + offset for offset, byte in enumerate(before) if byte != after[offset]]


def steps_that_change(bench, source, last, at):
    """The steps after which a cell is another byte than before them."""
    states = [dump(bench.run('run', str(number), given=source).out.decode('latin-1')).pad[at - 0x8300]
              for number in range(last + 1)]
    return [number for number in range(1, last + 1) if states[number] != states[number - 1]]
