// The source. Only the lines in view are rows of the table.

const HEIGHT = 19, AHEAD = 10
const box = find('scroll'), sourceTable = find('source')
let shownFrom = -1, shownTo = -1
// the line that keys go to
let cursor = -1

function lineRow(index) {
  const line = lines[index], count = coverage[index]
  const row = make('tr', undefined, {className: count.className, title: coverageText(index)})
  row.setAttribute('aria-rowindex', index + 1)
  const bytes = line.bytes.slice(0, 8).match(/../g)?.join(' ').toUpperCase() ?? ''
  const times = make('td', timesText(count))
  if (count.share) times.style.background = `color-mix(in srgb, var(--hot) ${count.share}%, transparent)`
  row.append(make('td'), make('td', line.name.padStart(4)), make('td', line.size ? hex(line.at).slice(1) : ''),
    make('td', bytes + (line.size > 4 ? '…' : ''), {title: line.bytes}), times, make('td', textOfLine(index, now)))
  row.onclick = event => goToLine(index, !event.shiftKey)
  return row
}

// Whether a memory has other bytes at a line than those that it places.
const hasOther = (line, held) => line.bytes.toUpperCase() !==
  Array.from({length: line.size}, (_, i) => byte(held[moved(line.at, i)])).join('')

// A line of machine code that the program has changed, with the instruction or the words that are there now.
function textNow(index) {
  const line = lines[index]
  if (!ofProcessor || !line.isCode || !line.size) return line.text
  const isMade = now > 0 && lineOf[steps[now - 1].at] === index, held = isMade ? before : memory
  if (!hasOther(line, held)) return line.text
  const step = isMade ? steps[now - 1] : nextAddress(now) === line.at ? steps[now] : undefined
  const words = Array.from({length: line.size}, (_, i) => byte(held[line.at + i])).join('')
  return `${line.text.trimEnd()}   now: ${step?.text ?? words}`
}

function markRows() {
  const made = now ? lineOf[steps[now - 1].at] : -1, next = lineOf[nextAddress(now)]
  for (const row of sourceTable.rows) {
    const index = row.rowIndex + shownFrom
    row.classList.toggle('made', index === made)
    row.classList.toggle('next', index === next)
    row.classList.toggle('stop', index === next && now === last && data.stopped)
    row.classList.toggle('cursor', index === cursor)
    const text = hasSource ? textNow(index) : textOfLine(index, now)
    if (row.lastChild.textContent !== text) row.lastChild.textContent = text
  }
}

function drawLines() {
  const from = Math.max(0, Math.floor(box.scrollTop / HEIGHT) - AHEAD)
  const to = Math.min(lines.length, Math.ceil((box.scrollTop + box.clientHeight) / HEIGHT) + AHEAD)
  if (from !== shownFrom || to !== shownTo) {
    sourceTable.replaceChildren(sourceTable.caption, ...Array.from({length: to - from}, (_, i) => lineRow(from + i)))
    sourceTable.style.top = `${from * HEIGHT}px`
    shownFrom = from
    shownTo = to
  }
  markRows()
}

// The next step of a line, or the previous one; after the last comes the first.
function goToLine(index, forward) {
  const numbers = stepsOfLine(index)
  if (!numbers.length) return say(`${lines[index].name}: no step of the page is at this line`)
  go(forward ? numbers.find(number => number > now) ?? numbers[0]
    : numbers.findLast(number => number < now) ?? numbers.at(-1))
}

function keepInView(index) {
  if (index < 0) return
  const top = index * HEIGHT
  if (top < box.scrollTop + HEIGHT || top + HEIGHT > box.scrollTop + box.clientHeight - HEIGHT)
    box.scrollTop = top - box.clientHeight / 2
}

// Arrows choose a line, and Enter runs to it.
function onSourceKey(event) {
  const by = {ArrowUp: -1, ArrowDown: 1, PageUp: -20, PageDown: 20}[event.key]
  if (event.ctrlKey || event.altKey || event.metaKey || (!by && event.key !== 'Enter')) return
  event.preventDefault()
  event.stopPropagation()
  const start = cursor < 0 ? Math.max(0, lineOf[nextAddress(now)]) : cursor
  if (!by) return goToLine(start, !event.shiftKey)
  cursor = Math.max(0, Math.min(lines.length - 1, cursor < 0 ? start : start + by))
  keepInView(cursor)
  drawLines()
  say(`line ${lines[cursor].name}, ${coverageText(cursor)}: ${textOfLine(cursor, now)}`)
}

function showBytes() {
  sourceTable.classList.toggle('with-bytes', find('bytes-shown').checked)
}

function buildSource() {
  find('room').style.height = `${lines.length * HEIGHT}px`
  sourceTable.setAttribute('aria-rowcount', lines.length)
  // the column of the texts keeps its place whatever lines are in view
  const longest = lines.reduce((most, line) => Math.max(most, line.text.length), 0)
  sourceTable.style.width = `${Math.min(longest, 400) + 24}ch`
  find('room').style.minWidth = sourceTable.style.width
  find('bytes-shown').onchange = showBytes
  box.onscroll = drawLines
  box.onkeydown = onSourceKey
  new ResizeObserver(drawLines).observe(box)
}

views.push(() => {
  keepInView(lineOf[nextAddress(now)])
  if (now) keepInView(lineOf[steps[now - 1].at])
  drawLines()
})
