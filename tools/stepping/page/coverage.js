// What was executed: how often each line, which ways its branches went, and which data. A line that ends the program is
// executed and is no step.

const BRANCH = /^B[RS] >([0-9A-F]{4})$/

function waysOf(numbers, line) {
  const after = line.at + line.size, branch = numbers.length ? BRANCH.exec(steps[numbers[0] - 1].text) : null
  if (!branch || parseInt(branch[1], 16) === after) return null
  const passed = numbers.filter(number => nextAddress(number) === after).length
  return [numbers.length - passed, passed]
}

function coverageOf(line, index) {
  const numbers = stepsOfLine(index)
  const isEnd = data.over && lineOf[data.last.at] === index && line.size > 0
  const atBegin = numbers.filter(number => steps[number - 1].at === line.at).length
  const ends = isEnd && data.last.at === line.at ? 1 : 0
  const count = atBegin + ends, inside = numbers.length - atBegin + (isEnd ? 1 : 0) - ends
  const ways = line.isCode && count === numbers.length ? waysOf(numbers, line) : null
  const isWild = line.isCode ? inside > 0 : count + inside > 0
  const mark = isWild ? 'wild' : line.isCode && line.size && !count ? 'never' : ways?.includes(0) ? 'one-way' : ''
  return {count, inside, ways, isWild, className: `${numbers.length ? 'runs' : 'idle'} ${mark}`.trim(), share: 0}
}

const timesText = ({count, inside}) => count + inside ? `×${grouped(count + inside)}` : ''

// What was counted of a line, in words.
function coverageText(index) {
  const line = lines[index], {count, inside, ways, isWild} = coverage[index]
  if (!line.size || (!line.isCode && !isWild)) return 'no instruction'
  const texts = [count + inside === 1 ? 'executed once' : `executed ${counted(count + inside, 'time')}`]
  if (isWild) texts.push(line.isCode ? 'at bytes that do not begin an instruction' : 'though it is no line of code')
  else if (ways) texts.push(`${counted(ways[0], 'time')} to its target and ${counted(ways[1], 'time')} on`)
  return texts.join(', ')
}

// of each line what was counted, with the share of its colour
const coverage = lines.map(coverageOf)
const mostExecuted = coverage.reduce((most, it) => Math.max(most, it.count), 1)
for (const it of coverage)
  if (it.count) it.share = Math.round(8 + 62 * Math.log(it.count) / Math.log(Math.max(2, mostExecuted)))

function coveredText() {
  const code = coverage.filter((it, index) => lines[index].isCode && lines[index].size)
  const executed = code.filter(it => it.count).length, wild = coverage.filter(it => it.isWild).length
  const data = wild ? `; ${counted(wild, 'line')} of data executed` : ''
  return hasSource ? `${executed} of ${counted(code.length, 'line')} of code executed${data}` : ''
}
find('covered').textContent = coveredText()
