// The condition that steps are looked for by, and the watched places and conditions.

// the condition of the field, and the steps at which it holds
const asked = {text: '', wrong: '', steps: []}
// places, each with its bytes, and conditions, each as a function; and the steps that change them
const watched = []

// The steps at which a condition holds, by the memory after each step and the one before it.
function stepsWhere(holds) {
  const found = [], after = memoryAt(0), old = memoryAt(0)
  for (let number = 1; number <= last; number++) {
    apply(after, steps[number - 1].changes)
    if (holds(stateOf(number, after, old))) found.push(number)
    apply(old, steps[number - 1].changes)
  }
  return found
}

// Reads a condition; what is wrong with it is kept in its place.
function ask(text) {
  const wanted = text.trim()
  if (wanted === asked.text) return
  Object.assign(asked, {text: wanted, wrong: '', steps: []})
  find('where').value = wanted
  if (!wanted) return
  try {
    asked.steps = stepsWhere(condition(wanted))
  } catch (error) {
    if (!(error instanceof Wrong)) throw error
    asked.wrong = error.message
  }
}

function goWhere(forward) {
  ask(find('where').value)
  const to = forward ? asked.steps.find(number => number > now) : asked.steps.findLast(number => number < now)
  if (to === undefined && asked.steps.length) say(`no ${forward ? 'later' : 'earlier'} step at which it holds`)
  go(to ?? now)
}

views.push(() => {
  const count = asked.steps.length, index = asked.steps.indexOf(now)
  find('where-hits').textContent = asked.wrong || (!asked.text ? '' : !count ? 'at no step'
    : index < 0 ? `at ${counted(count)}` : `${index + 1} of ${count}`)
  find('where').classList.toggle('wrong', asked.wrong !== '')
})

// Watches a condition.
function watch(text) {
  const wanted = text.trim()
  if (!wanted || watched.some(it => it.text === wanted)) return
  try {
    const value = condition(wanted)
    watched.push({text: wanted, value, steps: stepsWhere(state => value(state) !== value(state.old))})
  } catch (error) {
    if (!(error instanceof Wrong)) throw error
    asked.wrong = error.message
  }
}

// The chosen place as a condition spells it; none of a part longer than four bytes, or of what a port holds.
function chosenWord() {
  const {at, width} = choice, name = [...placesOfNames].find(([, it]) => it.at === at && it.size === width)
  if (at < 0 || at >= FIRST_LATCH || width > 4) return ''
  if (name && width <= 2) return name[0]
  if (at >= REGISTERS) return bare(at)
  return `${at >= VIDEO ? `V@${hex(at - VIDEO)}` : `@${hex(at)}`}:${width}`
}

function watchChosen() {
  const text = chosenWord()
  if (text) watch(text)
  else say('choose a place of one to four bytes first')
  go(now)
}

// The next step that changes the chosen place or a watched one, or the previous one.
function goToChange(forward) {
  const found = [choice, ...watched].map(({steps}) =>
    forward ? steps.find(number => number > now) : steps.findLast(number => number < now)).filter(it => it !== undefined)
  if (found.length) go(forward ? Math.min(...found) : Math.max(...found))
}

function watchedRow(it) {
  const row = make('tr'), state = stateOf(now, memory, before), value = it.value(state), old = it.value(state.old)
  const cell = make('td'), place = make('button', it.text, {title: 'Forgets it'})
  place.dataset.key = `watched ${it.text}`
  place.onclick = () => {
    watched.splice(watched.indexOf(it), 1)
    go(now)
  }
  cell.append(place)
  const shown = value < 0 ? `${value}` : `${hex(value, value > 255 ? 4 : 2)} ${value}`
  row.append(cell, make('td', value === old ? shown : `${shown}, was ${old}`, {className: value === old ? '' : 'changed'}),
    make('td', `${counted(it.steps.length, 'change')}`))
  return row
}

oneStop(find('watched'))
views.push(() => replaceRows(find('watched'), watched.map(watchedRow)))
