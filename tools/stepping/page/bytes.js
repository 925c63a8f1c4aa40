// Tables of bytes: the cells, parts of the memories, and the chosen place with its history.

function buildBytes(table, count) {
  const head = make('tr'), buttons = []
  head.append(make('th'), ...Array.from({length: 16}, (_, i) => make('th', ' ' + i.toString(16).toUpperCase())))
  table.append(head)
  for (let at = 0; at < count; at += 16) {
    const row = make('tr')
    row.append(make('th'))
    for (let i = at; i < Math.min(at + 16, count); i++) {
      const cell = make('td'), button = make('button', '')
      button.onclick = () => choose(+button.dataset.at)
      cell.append(button)
      row.append(cell)
      buttons.push(button)
    }
    row.append(make('td', ''))
    table.append(row)
  }
  oneStop(table)
  return buttons
}

function drawByte(button, at) {
  const value = memory[at], isNew = changed.has(at)
  const meaning = MEANINGS.get(at), text = byte(value)
  const title = `${placeName(at)}${meaning ? `, ${meaning}` : ''}: ${text}` +
    (isNew ? `, was ${byte(before[at])}` : '')
  const name = [value ? '' : 'zero', namesOf.has(at) ? 'named' : meaning ? 'own' : '',
    isNew ? 'changed' : '', isChosen(at) ? 'chosen' : ''].join(' ')
  // an element that stays as it is costs the browser nothing
  if (button.title !== title) {
    button.title = button.ariaLabel = title
    button.textContent = text
    button.dataset.at = at
  }
  if (button.className !== name) button.className = name
}

// Draws a part of the page now and after each step, if it is not folded.
function whenOpen(id, draw) {
  const part = find(id)
  part.addEventListener('toggle', () => { if (part.open) draw() })
  views.push(() => { if (part.open) draw() })
}

const cellButtons = buildBytes(find('cells'), CELLS_END - CELLS)
for (let row = 1; row < find('cells').rows.length; row++)
  find('cells').rows[row].cells[0].textContent = hex(CELLS + 16 * (row - 1))
whenOpen('cells-part', () => cellButtons.forEach((button, i) => drawByte(button, CELLS + i)))

const ROWS = 12

// A table of a part of a memory, from an address that is chosen, or that follows the changes.
function partTable(id, first, size) {
  const table = find(id), from = find(`${id}-from`), follow = find(`${id}-follow`)
  const buttons = buildBytes(table, 16 * ROWS)
  const part = {from: 0, size, follow, show(offset) { part.from = offset & (size - 16); go(now) }}
  const placeAt = offset => first + offset % size

  function followChanges() {
    const at = [...changed].find(place => place >= first && place < first + size)
    if (!follow.checked || at === undefined) return
    const offset = at - first
    if (offset < part.from || offset >= part.from + 16 * ROWS) part.from = offset & (size - 16)
  }

  const writeFrom = () => { from.value = hex(part.from).slice(1) }
  from.onchange = () => {
    const at = /^ *>?([0-9A-F]+) *$/i.exec(from.value)
    if (at && parseInt(at[1], 16) < size) {
      follow.checked = false
      part.show(parseInt(at[1], 16))
    }
    writeFrom()
  }
  part.draw = () => {
    followChanges()
    if (document.activeElement !== from) writeFrom()
    buttons.forEach((button, i) => drawByte(button, placeAt(part.from + i)))
    for (let row = 0; row < ROWS; row++) {
      const {cells} = table.rows[row + 1], start = part.from + 16 * row
      cells[0].textContent = hex(start % size)
      cells[17].textContent = Array.from({length: 16}, (_, i) => character(memory[placeAt(start + i)])).join('')
    }
  }
  return part
}

find('memories').hidden = !ofProcessor
if (ofProcessor) {
  const part = partTable('memory', 0, VIDEO)
  part.from = data.first.length ? data.first[0][0] & 0xFFF0 : 0xA000
  whenOpen('memories', part.draw)
}
const videoPart = partTable('video', VIDEO, VIDEO_SIZE)
whenOpen('video-part', videoPart.draw)

// what the run changes is open; the rest is folded
find('cells-part').open = isTouched(CELLS, CELLS_END)
find('memories').open = ofProcessor && (isTouched(0, CELLS) || isTouched(CELLS_END, VIDEO))
find('video-part').open = isTouched(VIDEO, REGISTERS)
find('registers-part').open = isTouched(REGISTERS, REGISTERS + 8)
find('screen-part').open = isTouched(VIDEO, REGISTERS + 8) || data.first.some(([at]) => at >= VIDEO)

function chosenText() {
  const {at, width} = choice, count = choice.steps.length
  const history = count ? `changed in ${counted(count)}:` : 'never changed'
  if (width > 2) return `${width} bytes at ${placeName(at)}; ${history}`
  const value = numberAt(memory, at, width)
  return `${width > 1 ? 'word' : 'byte'} at ${placeName(at)} is ${hex(value, 2 * width)}, ${value}; ${history}`
}

// of a byte that never changed, that the next one did: the place may be that of a word
function nextByteText() {
  const {at, width} = choice, next = at + 1
  if (width > 1 || choice.steps.length || !isWhole(at) || namesOf.has(next)) return ''
  const count = stepsThatChange(next, 1).length
  return count ? `. The byte after it, ${placeName(next)}, changed in ${counted(count)}; w chooses both` : ''
}

function historyButton(number) {
  const button = make('button', `${shownNumber(number)}`, {className: number === now ? 'now' : ''})
  button.dataset.key = `change ${number}`
  button.onclick = () => go(number)
  return button
}

const history_ = make('li')
oneStop(find('chosen'))
views.push(() => {
  find('word').checked = choice.width === 2
  if (choice.at < 0) return
  const list = find('chosen'), numbers = choice.steps
  const from = Math.max(0, numbers.findLastIndex(number => number <= now) - 20)
  history_.replaceChildren(...numbers.slice(from, from + 40).map(historyButton),
    from + 40 < numbers.length ? `… ${numbers.length - from - 40} more` : '')
  replaceRows(list, [make('div', chosenText() + nextByteText()), history_])
})
