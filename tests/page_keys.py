"""A page of tools/steps by keys alone: Tab comes to each table once, arrows go through it, and the focus stays."""
from page_checks import ADDRESS, NUMBER, UNFOLD

FOCUS = '''(() => {
    const it = document.activeElement
    if (it === document.body) return ''
    return it.id || it.closest('[id]').id
})()'''
TEXT = 'document.activeElement.textContent'
# the buttons of a box that Tab comes to
STOPS = "[...document.querySelectorAll('#%s button')].filter(it => it.tabIndex === 0).length"
BOXES = ['steps', 'calls', 'named', 'cells', 'registers', 'video', 'routines']
MOST_STOPS = 60


class Keys:
    """A page with calls, gone through by keys."""

    def __init__(self, page):
        self.page, self.at = page, page.at

    def check(self, what, got, wanted):
        self.page.check(f'by keys: {what}', got, wanted)

    def tab_to(self, place):
        """Goes on by Tab until an element of this part has the focus."""
        for _ in range(MOST_STOPS):
            if self.at.value(FOCUS) == place:
                return
            self.at.key('Tab')
        self.check(f'Tab comes to {place}', False, True)

    def stops(self):
        """Tab comes to each box once, and to the body again in the end."""
        self.at.value('document.activeElement.blur()')
        found = []
        for _ in range(MOST_STOPS):
            self.at.key('Tab')
            found.append(self.at.value(FOCUS))
            if not found[-1]:
                break
        self.check('Tab comes to the end', found[-1], '')
        for name in BOXES:
            self.check(f'stops in {name}', (found.count(name), self.at.value(STOPS % name)), (1, 1))
        self.check('each table has a caption', self.at.value(
            "[...document.querySelectorAll('table')].every(it => it.caption?.textContent)"), True)

    def within(self):
        """Arrows go through a table, Enter acts, and the focus stays."""
        self.at.value('go(3)')
        for name in BOXES:
            self.tab_to(name)
            before = self.at.value('document.activeElement.dataset.at ?? document.activeElement.textContent')
            self.at.key('ArrowDown')
            after = self.at.value('document.activeElement.dataset.at ?? document.activeElement.textContent')
            is_one = self.at.value(f"rowsOf(find('{name}')).length") == 1
            self.check(f'an arrow moves in {name}', before != after or is_one, True)
            self.page.key('Enter')
            self.check(f'the focus stays in {name}', self.at.value(FOCUS), name)
        self.tab_to('cells')
        at = int(self.at.value('document.activeElement.dataset.at'))
        self.at.key('ArrowRight')
        self.check('an arrow goes to the next byte', self.at.value('+document.activeElement.dataset.at'), at + 1)
        self.page.key('Enter')
        self.check('Enter chooses it', self.at.value('choice.at'), at + 1)

    def lines(self):
        """Arrows choose a line of the source, Enter runs to it, and a reader is told."""
        self.at.value('document.activeElement.blur(); go(0)')
        self.tab_to('scroll')
        self.at.key('ArrowDown')
        self.at.key('ArrowDown')
        line = self.at.value('cursor')
        self.check('the line is said', self.at.value("find('said').textContent").startswith('line '), True)
        self.page.key('Enter')
        number = self.at.value(NUMBER)
        self.check('Enter runs to the line', self.at.value(f'lineOf[steps[{number} - 1].at]'), line)
        self.check('the focus stays in the source', self.at.value(FOCUS), 'scroll')

    def moves(self, record):
        """o, O, u and U, at each step, against the calls of the record."""
        self.at.value('document.activeElement.blur()')
        depths = record.depths
        for number in range(record.last + 1):
            for key, by, more in (('o', 1, 0), ('O', -1, 0), ('u', 1, -1), ('U', -1, -1)):
                to = number + by
                while 0 < to < record.last and depths[to] > depths[number] + more:
                    to += by
                self.at.value(f'go({number})')
                self.page.key(key)
                self.check(f'{key} at {number}', self.at.value(NUMBER), max(0, min(record.last, to)))

    def conditions(self, record, holds, text):
        """c and C go to the steps at which the condition of the field holds; a watches; n and p go to changes."""
        wanted = record.where(holds)
        self.at.value('document.activeElement.blur(); go(0)')
        self.page.key('?')
        self.at.type(text)
        self.page.key('Enter')
        self.check('Enter goes to the first', self.at.value(NUMBER), wanted[0])
        self.page.key('Escape')
        for number in wanted[1:]:
            self.page.key('c')
            self.check('c goes to the next', self.at.value(NUMBER), number)
        for number in wanted[-2::-1]:
            self.page.key('C')
            self.check('C goes to the previous', self.at.value(NUMBER), number)
        self.at.value("choose(0x8300, 1); go(0)")
        self.page.key('a')
        self.check('a watches the chosen place', self.at.value('watched.length'), 1)
        changes = record.steps_that_change(0x8300, 1)
        self.page.key('n')
        self.check('n goes to a change', self.at.value(NUMBER), changes[0])
        self.check('the address has what is watched', 'watch=' in self.at.value(ADDRESS), True)

    def all(self, record, holds, text):
        self.at.open(self.page.address)
        self.at.value(UNFOLD)
        self.stops()
        self.within()
        self.lines()
        self.moves(record)
        self.conditions(record, holds, text)
