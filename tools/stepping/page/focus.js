// Keys within tables and lists: Tab comes to each of them once, and arrows go on within it.

const ARROWS = {ArrowLeft: [0, -1], ArrowRight: [0, 1], ArrowUp: [-1, 0], ArrowDown: [1, 0]}

// the buttons of a table or a list, row by row
const rowsOf = box => [...box.querySelectorAll('tr, li')].map(row => [...row.querySelectorAll('button')])
  .filter(row => row.length)

// The one button of a box that Tab comes to.
function setStop(box, button) {
  for (const it of box.querySelectorAll('button')) it.tabIndex = it === button ? 0 : -1
}

function moveWithin(box, event) {
  const rows = rowsOf(box), by = ARROWS[event.key] ?? {Home: [-Infinity, 0], End: [Infinity, 0]}[event.key]
  if (!by || !rows.length || event.ctrlKey || event.altKey || event.metaKey || event.shiftKey) return
  const row = rows.findIndex(it => it.includes(event.target)), column = row < 0 ? 0 : rows[row].indexOf(event.target)
  if (row < 0) return
  event.preventDefault()
  event.stopPropagation()
  const isFlat = rows.every(it => it.length === 1), to = rows[Math.max(0, Math.min(rows.length - 1, row + by[0] +
    (isFlat ? by[1] : 0)))]
  const button = to[Math.max(0, Math.min(to.length - 1, column + (isFlat ? 0 : by[1])))]
  setStop(box, button)
  button.focus()
}

// Makes a table or a list one stop of Tab. A click with the mouse leaves the focus where it is, so that arrows go on
// with the steps.
function oneStop(box) {
  box.addEventListener('keydown', event => moveWithin(box, event))
  box.addEventListener('mousedown', event => { if (event.target.closest('button')) event.preventDefault() })
  box.addEventListener('focusin', event => { if (event.target.tagName === 'BUTTON') setStop(box, event.target) })
  keepStop(box)
}

// After buttons were made anew: one of them is a stop.
function keepStop(box) {
  const buttons = [...box.querySelectorAll('button')]
  if (buttons.filter(it => it.tabIndex === 0).length !== 1) setStop(box, buttons[0])
}

// Gives a box new rows. The focus stays at the button of the same key, or else at the first one.
function replaceRows(box, rows) {
  const held = box.contains(document.activeElement) ? document.activeElement.dataset.key ?? '' : null
  box.replaceChildren(...[...box.querySelectorAll(':scope > caption')], ...rows)
  const buttons = [...box.querySelectorAll('button')]
  const found = held === null ? undefined : buttons.find(it => it.dataset.key === held) ?? buttons[0]
  setStop(box, found ?? buttons[0])
  found?.focus({preventScroll: true})
}

// Says something to a reader of the screen.
function say(text) { find('said').textContent = text }
