// The calls of the run: which routines are open, steps over and out of them, and who calls them.

const calls = data.calls.map(([begin, routine, end, slot, back], index) =>
  ({index, begin: begin - first, routine, end: end === null ? Infinity : end - first, slot, back}))

// how many routines are open after each step; the program itself counts
const depths = new Int32Array(last + 1)
{
  const risen = new Int32Array(last + 2)
  for (const {begin, end} of calls) {
    risen[Math.max(0, Math.min(last + 1, begin))]++
    if (end <= last) risen[Math.max(0, end)]--
  }
  for (let i = 0, depth = 0; i <= last; i++) depths[i] = depth += risen[i]
}

const framesAt = number => calls.filter(({begin, end}) => begin <= number && number < end)

// The step after which no more routines are open than now; it is the next one if that is no call.
function over(forward) {
  const by = forward ? 1 : -1
  let to = now + by
  while (to > 0 && to < last && depths[to] > depths[now]) to += by
  go(to)
}

// The step that ends the routine; or back to where it is called.
function out(forward) {
  const by = forward ? 1 : -1
  let to = now + by
  while (to > 0 && to < last && depths[to] >= depths[now]) to += by
  go(to)
}

// Where a return address leads, if that is not the place after the call. Of the processor it is in a register, which a
// routine that calls others keeps somewhere else: so it is said of the innermost routine alone.
function returnText(frame, isTop) {
  if (frame.slot < 0 || frame.slot + 1 >= VIDEO || frame.back < 0 || (ofProcessor && !isTop)) return ''
  const to = numberAt(memory, frame.slot, 2), by = to - frame.back
  const where = ofProcessor ? `${registerName(frame.slot, nextAt(now).wp)[0] ?? 'the return address'} is` : 'returns to'
  return by ? `${where} ${codeName(to)}, ${by > 0 ? '+' : ''}${by} from the end of the call` : ''
}

function frameRow(frame, isTop) {
  const item = make('li'), call = steps[frame.begin - 1], button = make('button', routineName(frame.routine))
  button.dataset.key = `frame ${frame.index}`
  button.onclick = () => go(frame.begin)
  const where = frame.index === 0 ? 'the program'
    : call ? `called in step ${shownNumber(frame.begin)}, ${lineName(call.at) || hex(call.at)}` : 'called before'
  item.append(button, ` ${where}  `, make('span', returnText(frame, isTop), {className: 'moved'}))
  return item
}

oneStop(find('calls'))
views.push(() => {
  const open = framesAt(now).reverse()
  replaceRows(find('calls'), open.slice(0, 200).map((frame, index) => frameRow(frame, index === 0)))
})

// The lines that call a routine, each with how often and its first call.
function showCallers(routine) {
  const found = new Map()
  for (const frame of calls) {
    const call = steps[frame.begin - 1]
    if (frame.routine !== routine || !call) continue
    const it = found.get(call.at) ?? {at: call.at, count: 0, begin: frame.begin}
    it.count++
    found.set(call.at, it)
  }
  const rows = [...found.values()].map(({at, count, begin}) => {
    const item = make('li'), button = make('button', `step ${shownNumber(begin)}`)
    button.dataset.key = `caller ${at}`
    button.onclick = () => go(begin)
    const line = lineOf[at] < 0 || !hasSource ? '' : lines[lineOf[at]].text.trim()
    item.append(`${counted(count, 'call')} at ${codeName(at)}, the first in `, button, `  ${line}`)
    return item
  })
  replaceRows(find('callers'), [make('li', `${routineName(routine)} is called at ${counted(rows.length, 'place')}:`),
    ...rows])
  say(`${routineName(routine)} is called at ${counted(rows.length, 'place')}`)
}

function routineRow([at, own, whole, times]) {
  const row = make('tr'), cell = make('td'), button = make('button', routineName(at))
  button.title = `The callers of ${routineName(at)}`
  button.onclick = () => showCallers(at)
  cell.append(button)
  row.append(cell, ...[own, whole, times].map(count => make('td', grouped(count))),
    make('td', lineName(at)))
  return row
}

{
  const head = make('tr')
  head.append(...['routine', 'own steps', 'with calls', 'calls', 'where'].map(text => make('th', text)))
  find('routines').append(head, ...data.routines.map(routineRow))
  oneStop(find('routines'))
  oneStop(find('callers'))
  find('routines-part').open = data.routines.length > 1
}
