// The status; of GPL both stacks, and the cells by their names; of the processor its registers.

const FIRST_DATA = 0x9F, FIRST_RETURN = 0x7E
// GPL Programmer's Guide, "Status byte"; TMS9900 data manual, "Status register"
const BITS = ofProcessor ? [[0x8000, 'L>'], [0x4000, 'A>'], [0x2000, 'EQ'], [0x1000, 'C'], [0x0800, 'OV'],
  [0x0400, 'OP'], [0x0200, 'X']] : [[0x80, 'H'], [0x40, 'GT'], [0x20, 'COND'], [0x10, 'CARRY'], [0x08, 'OVF']]

const statusAt = (number, held) => ofProcessor ? nextAt(number).st : held[STATUS]

views.push(() => {
  const status = statusAt(now, memory), old = statusAt(Math.max(0, now - 1), before)
  find('status').replaceChildren(...BITS.map(([bit, name]) => make('span', name, {
    className: (status & bit ? 'on' : '') + ((status ^ old) & bit ? ' changed' : ''),
    ariaLabel: `${name} is ${status & bit ? 'set' : 'clear'}`})),
    hex(status, ofProcessor ? 4 : 2))
})

// A stack grows upwards; its pointer is the low byte of the address of its top.
function stack(title, pointer, first, width, textAt) {
  const top = memory[pointer], list = make('ol')
  for (let offset = top; offset > first && CELLS + offset + width <= CELLS_END; offset -= width) {
    const at = CELLS + offset, isNew = changed.has(at) || (width > 1 && changed.has(at + 1))
    list.append(make('li', textAt(at), {className: isNew ? 'changed' : ''}))
  }
  if (!list.children.length) list.append(make('li', top === first ? 'empty' : 'below its beginning'))
  const part = make('div')
  part.append(make('div', `${title} ${hex(top, 2)}`), list)
  return part
}

const drawStacks = () => find('stacks').replaceChildren(
  stack('Data', DATA_STACK, FIRST_DATA, 1, at => `${hex(at)} ${byte(memory[at])}`),
  stack('Return addresses', RETURN_STACK, FIRST_RETURN, 2,
    at => `${hex(at)} ${codeName(memory[at] << 8 | memory[at + 1])}`))

const wordAt = (held, at) => held[at % MEMORY_SIZE] << 8 | held[(at + 1) % MEMORY_SIZE]

// The table of the workspace, made once, and what its buttons choose.
const registerTable = make('table')
registerTable.append(make('caption', 'Registers of the workspace', {className: 'unseen'}))
for (let line = 0; ofProcessor && line < 4; line++) {
  const row = make('tr')
  for (let number = line; number < 16; number += 4) {
    const cell = make('td'), button = make('button', '', {title: `Choose R${number}`})
    button.onclick = () => choose((nextAt(now).wp + 2 * number) % MEMORY_SIZE, 2)
    button.dataset.number = number
    cell.append(button)
    row.append(make('th', `R${number}`), cell)
  }
  registerTable.append(row)
}
if (ofProcessor) {
  find('stacks').append(registerTable, make('div', '', {className: 'own'}))
  oneStop(registerTable)
}

// The processor's own registers, those of the workspace, and what the ports hold.
function drawProcessor() {
  const {at: pc, wp} = nextAt(now), {wp: old} = nextAt(Math.max(0, now - 1))
  for (const button of registerTable.querySelectorAll('button')) {
    const number = +button.dataset.number, value = wordAt(memory, wp + 2 * number)
    button.textContent = hex(value)
    button.parentElement.className = value === wordAt(before, old + 2 * number) ? '' : 'changed'
  }
  const latch = name => memory[LATCHES.get(name)[0]] << 8 | memory[LATCHES.get(name)[0] + 1]
  find('stacks').lastChild.textContent = [`PC ${hex(pc)}`, `WP ${hex(wp)}`, `video address ${hex(latch('VA'))}`,
    `GROM address ${hex(latch('GA'))}`].join('\n')
}

views.push(ofProcessor ? drawProcessor : drawStacks)

const SHOWN = 16

// The bytes of a place with a name: a byte or a word with its number, or the first bytes of a longer part.
function partText(held, at, size) {
  if (size <= 2) {
    const value = numberAt(held, at, size)
    return `${hex(value, 2 * size).slice(1)} ${value}`
  }
  const shown = Array.from({length: Math.min(size, SHOWN)}, (_, i) => byte(held[moved(at, i)])).join(' ')
  return size > SHOWN ? `${shown} …` : shown
}

// Rows are made once; what stays as it is costs the browser nothing.
const namedRows = [...data.places.map(([name, at, size]) => ({name, at, size, isOwn: false})),
  ...[...MEANINGS].slice(0, 8).map(([at, name]) => ({name, at, size: 1, isOwn: true}))]

function makeNamedRow(it) {
  it.row = make('tr', undefined, {className: it.isOwn ? 'own' : ''})
  const cell = make('td'), button = make('button', it.name, {title: `Choose ${bare(it.at)}`})
  button.onclick = () => choose(it.at, it.size)
  cell.append(button)
  it.value = make('td')
  it.row.append(cell, make('td', bare(it.at)), make('td', it.size > 1 ? `${it.size}` : ''), it.value)
  return it.row
}

find('named').append(...namedRows.map(makeNamedRow))
oneStop(find('named'))
find('names').hidden = !namedRows.length

// Draws a row anew, unless it has what it had.
function drawNamed(it) {
  const isNew = isChanged(it.at, it.size), isIt = choice.at === it.at && choice.width === it.size
  const text = it.size > 2 ? partText(memory, it.at, it.size) : numberAt(memory, it.at, it.size)
  if (text === it.text && !isNew && !it.isNew && isIt === it.isIt) return
  Object.assign(it, {text, isNew, isIt})
  it.value.textContent = partText(memory, it.at, it.size)
  it.value.title = isNew ? `was ${partText(before, it.at, it.size)}` : ''
  it.value.className = isNew ? 'changed' : ''
  it.row.classList.toggle('chosen', isIt)
}

views.push(() => namedRows.forEach(drawNamed))
