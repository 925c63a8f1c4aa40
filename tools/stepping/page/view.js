// What the page shows now, and how that changes. Each view draws a part of the page from these.

const views = []
let now = 0, memory = memoryAt(0), before = memory, changed = new Set()
// the chosen place, its width and the steps that change it; and the width of a place that is not known for a word
const choice = {at: -1, width: 1, steps: []}
let usualWidth = 1

function go(number) {
  now = Math.max(0, Math.min(last, number))
  memory = memoryAt(now)
  before = now ? memoryAt(now - 1) : memory
  changed = new Set()
  if (now)
    for (const change of steps[now - 1].changes)
      for (let i = 0; i < lengthOf(change); i++) changed.add(change[0] + i)
  for (const draw of views) draw()
  writeFragment()
}

const isChosen = at => choice.at >= 0 && at >= choice.at && at < choice.at + choice.width

function isChanged(at, width) {
  for (let i = at; i < at + width; i++) if (changed.has(i)) return true
  return false
}

function setChoice(at, width) {
  choice.at = at
  choice.width = width > 2 || isWhole(at) ? width : 1
  choice.steps = at < 0 ? [] : stepsThatChange(at, choice.width)
}

// A first click chooses a place, as a word if it is known for one; one on the chosen place goes to the step that
// changed it last.
function choose(at, width) {
  if (isChosen(at) && (width ?? choice.width) === choice.width) {
    const isMade = [...changed].some(isChosen)
    const to = choice.steps.findLast(number => number < now || (number === now && !isMade))
    if (to !== undefined) return go(to)
  }
  setChoice(at, width ?? (wordStarts.has(at) ? 2 : usualWidth))
  go(now)
}

// The step, the choice, the condition and what is watched are in the address of the page, as #step=12&at=8302 or
// #step=12&at=V0021&word or #step=12&where=P%3A2%3E5&watch=P.
const placeWord = at => bare(at).replace('>', '')

function placeOf(word) {
  const found = /^(?:V([0-3][0-9A-F]{3})|VR([0-7])|([0-9A-F]{4}))$/i.exec(word)
  if (!found) return -1
  if (found[1]) return VIDEO + parseInt(found[1], 16)
  if (found[2]) return REGISTERS + parseInt(found[2], 10)
  const at = parseInt(found[3], 16)
  return ofProcessor || (at >= CELLS && at < CELLS_END) ? at : -1
}

// Browsers take no more than some 200 addresses in 10 seconds: the last one of a row of steps is written.
const FRAGMENT_REST = 70
let fragmentTimer = 0, fragmentWritten = 0, fragment = location.hash

function writeFragment() {
  clearTimeout(fragmentTimer)
  const rest = fragmentWritten + FRAGMENT_REST - Date.now()
  if (rest > 0) fragmentTimer = setTimeout(placeFragment, rest)
  else placeFragment()
}

function placeFragment() {
  // an address that was changed by hand is read first
  if (location.hash !== fragment) return
  fragmentWritten = Date.now()
  const at = choice.at < 0 || choice.at >= FIRST_LATCH ? ''
    : `&at=${placeWord(choice.at)}${choice.width === 2 ? '&word' : choice.width > 2 ? `&size=${choice.width}` : ''}`
  const more = [['where', asked.text], ...watched.map(it => ['watch', it.text])]
    .map(([name, text]) => text ? `&${name}=${encodeURIComponent(text)}` : '').join('')
  try {
    history.replaceState(null, '', `#step=${shownNumber(now)}${at}${more}`)
    fragment = location.hash
  } catch { /* some browsers do not allow it for a file */ }
}

function readFragment() {
  fragment = location.hash
  const given = new URLSearchParams(location.hash.slice(1))
  const at = placeOf(given.get('at') ?? ''), size = /^[1-9][0-9]{0,4}$/.exec(given.get('size') ?? '')
  const room = at >= REGISTERS ? 1 : at >= VIDEO ? REGISTERS - at : CELLS_END > at ? CELLS_END - at : VIDEO - at
  if (at >= 0) setChoice(at, given.has('word') ? 2 : size ? Math.min(+size[0], room) : 1)
  if (given.has('where') || data.where) ask(given.get('where') ?? data.where)
  for (const text of given.getAll('watch')) watch(text)
  const number = given.get('step') ?? String(data.at ?? '')
  go(/^[0-9]+$/.test(number) ? +number - first : now)
}
