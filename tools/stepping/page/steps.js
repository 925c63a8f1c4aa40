// What the step did, in words; and the steps around it.

// A place that changed, as it is shown: a register or another word that it is a byte of, or the byte alone.
function unitOf(at, wp) {
  const register = registerName(at, wp)
  if (register.length) return {at: at - (at - wp) % 2, width: 2, name: register[0]}
  if (at >= FIRST_LATCH) {
    const word = [...LATCHES].find(([name, [start, size]]) => size === 2 && name !== 'VH' && at >= start && at < start + 2)
    return {at: word ? word[1][0] : at, width: word ? 2 : 1, name: bare(word ? word[1][0] : at)}
  }
  const even = ofProcessor && at < VIDEO ? at & ~1 : at, start = wordStarts.has(at - 1) ? at - 1 : even
  const isWord = ofProcessor ? at < VIDEO && worksOnWords() : wordStarts.has(start)
  const from = isWord ? start : at
  return {at: from, width: isWord && isWhole(from) ? 2 : 1, name: placeName(from)}
}

// whether the instruction of the step works on words
const worksOnWords = () => !/^(AB|CB|MOVB|SB|SOCB|SZCB) /.test(steps[now - 1]?.text ?? '')

const valueText = (held, {at, width}) => width === 2 ? hex(held[at] << 8 | held[at + 1]).slice(1) : byte(held[at])

// what changed, each word once
function changeTexts(changes, wp) {
  const texts = new Map()
  for (const change of changes) {
    const size = lengthOf(change), [at] = change
    if (size > 4) {
      const text = Array.from(memory.subarray(at, at + Math.min(size, 16)), character).join('')
      texts.set(at, `${placeName(at)} and ${size - 1} more: “${text}”`)
    } else for (let i = 0; i < size; i++) {
      const unit = unitOf(at + i, wp)
      texts.set(unit.at, `${unit.name} ${valueText(before, unit)}→${valueText(memory, unit)}`)
    }
  }
  return [...texts.values()]
}

function changesText({changes, wp}) {
  const texts = changeTexts(changes, wp), more = texts.length > 8 ? [`and ${texts.length - 8} more places`] : []
  return texts.length ? `  changed ${[...texts.slice(0, 8), ...more].join(', ')}` : '  changed nothing'
}

function nextText() {
  const next = nextAddress(now), line = lineOf[next] < 0 || !hasSource ? '' : ` (line ${lines[lineOf[next]].name})`
  return now < last ? `  next: ${steps[now].text} at ${codeName(next)}` : `  ${data.end}${line}`
}

views.push(() => {
  find('slider').value = now
  find('number').value = shownNumber(now)
  find('slider').ariaValueText = `step ${shownNumber(now)} of ${shownNumber(last)}`
  const made = find('made'), step = steps[now - 1]
  made.replaceChildren()
  if (step)
    made.append(`${shownNumber(now)}: `, make('b', step.text), ` at ${codeName(step.at)}`, changesText(step),
      comparedText())
  else made.append(first ? `The state after ${counted(first)}.` : 'Before the first step.')
  made.append(make('span', nextText(), {className: 'next'}))
})

const ROUND = 6
const stepList = find('steps')
for (let i = 0; i < ROUND; i++) {
  const item = make('li'), button = make('button')
  item.append(button, make('span'), make('i'))
  item.onclick = () => go(+button.dataset.number)
  stepList.append(item)
}
oneStop(stepList)

views.push(() => {
  const from = Math.max(0, Math.min(now - 3, last - ROUND))
  ;[...stepList.children].forEach((item, i) => {
    const number = from + i + 1, step = steps[number - 1], [button, text, source] = item.children
    item.hidden = !step
    if (!step) return
    const line = lineOf[step.at]
    item.className = number === now ? 'made' : ''
    button.dataset.number = number
    button.textContent = String(shownNumber(number)).padStart(6)
    button.ariaLabel = `Step ${shownNumber(number)}`
    text.textContent = ` ${hex(step.at)} ${step.text.padEnd(26)}`
    source.textContent = line < 0 || !hasSource ? '' : `  ${lines[line].text.trim()}`
  })
  if (!stepList.contains(document.activeElement))
    setStop(stepList, stepList.children[Math.max(0, Math.min(ROUND - 1, now - from - 1))].firstChild)
})
