// Buttons, keys and the search, and the beginning of all.

let playing = 0

function play(isOn) {
  clearTimeout(playing)
  playing = 0
  find('play').ariaPressed = String(isOn)
  find('play').textContent = isOn ? 'Pause' : 'Play'
  find('made').ariaLive = isOn ? 'off' : 'polite'
  if (!isOn) return
  if (now === last) go(0)
  const turn = () => {
    const delay = +find('speed').value
    go(now + (delay ? 1 : 10))
    if (now < last) playing = setTimeout(turn, delay || 16)
    else play(false)
  }
  playing = setTimeout(turn, +find('speed').value)
}

const textsOfSteps = []
// the steps that the last search found
const hits = {wanted: '', steps: []}

function search(forward) {
  hits.wanted = find('search').value.trim().toLowerCase()
  if (!textsOfSteps.length)
    for (const step of steps)
      textsOfSteps.push(`${hex(step.at)} ${step.text} ${lines[lineOf[step.at]]?.text ?? ''}`.toLowerCase())
  hits.steps = hits.wanted ? textsOfSteps.flatMap((text, i) => text.includes(hits.wanted) ? [i + 1] : []) : []
  go((forward ? hits.steps.find(number => number > now) ?? hits.steps[0]
    : hits.steps.findLast(number => number < now) ?? hits.steps.at(-1)) ?? now)
}

views.push(() => {
  const count = hits.steps.length, index = hits.steps.indexOf(now)
  const found = count ? index < 0 ? `${count} found` : `${index + 1} of ${count}` : 'none'
  find('hits').textContent = hits.wanted ? found : ''
})

function setWord(isWord) {
  usualWidth = isWord ? 2 : 1
  setChoice(choice.at, usualWidth)
  go(now)
}

// the field of the step's number; what is no number leaves the step as it is
function goToNumber(text) {
  go(/^ *[0-9]+ *$/.test(text) ? +text - first : now)
}

// Enter in a field looks forward, Shift+Enter back, and Escape leaves it with its text.
function onFieldKey(event, look) {
  if (event.key === 'Enter') look(!event.shiftKey)
  if (event.key !== 'Escape') return
  event.preventDefault()
  event.target.blur()
}

const KEYS = {
  ArrowLeft: event => go(now - (event.shiftKey ? 10 : 1)), ArrowRight: event => go(now + (event.shiftKey ? 10 : 1)),
  Home: () => go(0), End: () => go(last), ' ': () => play(!playing),
  s: () => go(now + 1), S: () => go(now - 1), o: () => over(true), O: () => over(false), u: () => out(true),
  U: () => out(false), c: () => goWhere(true), C: () => goWhere(false),
  n: () => goToChange(true), p: () => goToChange(false), w: () => setWord(choice.width === 1), a: watchChosen,
  '/': () => find('search').focus(), '?': () => find('where').focus(),
}

function onKey(event) {
  const tag = event.target.tagName
  const isTyped = tag === 'INPUT' && !['range', 'checkbox'].includes(event.target.type)
  if (event.ctrlKey || event.metaKey || event.altKey || isTyped || tag === 'SELECT') return
  if (event.key === ' ' && ['BUTTON', 'SUMMARY', 'INPUT'].includes(tag)) return
  const act = KEYS[event.key]
  if (!act) return
  event.preventDefault()
  act(event)
}

// what is kept of all pages; some browsers keep nothing of a file
const KEPT_THEME = 'ti_bench theme'

function keepTheme(theme) {
  try {
    localStorage.setItem(KEPT_THEME, theme)
  } catch { /* it is not kept */ }
}

function keptTheme() {
  try {
    return localStorage.getItem(KEPT_THEME)
  } catch {
    return null
  }
}

function changeTheme() {
  const root = document.documentElement, isDark = matchMedia('(prefers-color-scheme: dark)').matches
  const shown = root.dataset.theme ?? (isDark ? 'dark' : 'light')
  root.dataset.theme = shown === 'dark' ? 'light' : 'dark'
  keepTheme(root.dataset.theme)
}

function listen() {
  find('home').onclick = () => go(0)
  find('back').onclick = () => go(now - 1)
  find('forward').onclick = () => go(now + 1)
  find('last').onclick = () => go(last)
  find('play').onclick = () => play(!playing)
  find('slider').oninput = event => go(+event.target.value)
  find('number').onchange = event => goToNumber(event.target.value)
  find('search').onkeydown = event => onFieldKey(event, search)
  find('where').onkeydown = event => onFieldKey(event, goWhere)
  find('where-back').onclick = () => goWhere(false)
  find('where-next').onclick = () => goWhere(true)
  find('where-watch').onclick = () => {
    ask(find('where').value)
    watch(find('where').value)
    go(now)
  }
  find('over-back').onclick = () => over(false)
  find('over').onclick = () => over(true)
  find('out-back').onclick = () => out(false)
  find('out').onclick = () => out(true)
  find('keep').onclick = watchChosen
  find('theme').onclick = changeTheme
  find('word').onchange = event => setWord(event.target.checked)
  find('previous').onclick = () => goToChange(false)
  find('next').onclick = () => goToChange(true)
  for (const button of document.querySelectorAll('[data-register]'))
    button.onclick = () => {
      videoPart.follow.checked = false
      videoPart.show(tableAt(+button.dataset.register) % VIDEO_SIZE)
    }
  document.addEventListener('keydown', onKey)
  addEventListener('hashchange', readFragment)
}

if (ofProcessor) {
  find('h-source').textContent = hasSource ? 'Source' : 'Instructions'
  find('h-state').textContent = 'Status and registers'
  find('h-cells').textContent = 'Scratchpad'
  find('h-names').textContent = 'Named memory'
}
find('name').textContent = data.name
find('end').textContent = data.end
find('end').classList.toggle('stopped', data.stopped)
find('slider').max = last
find('number').min = first
find('number').max = shownNumber(last)
find('of').textContent = `of ${first ? `${grouped(first)} to ` : ''}${grouped(shownNumber(last))}`
if (['light', 'dark'].includes(keptTheme())) document.documentElement.dataset.theme = keptTheme()
buildSource()
listen()
readFragment()
