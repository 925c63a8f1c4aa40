'use strict'
// The run that the page was given: its steps, lines and names, and the memory after each step. Where the parts of the
// memory lie is given too.

const data = JSON.parse(document.getElementById('data').textContent)
const ofProcessor = data.kind === 'exec'
const {video: VIDEO, registers: REGISTERS, end: PLACES, cells: CELLS, dataStack: DATA_STACK,
  returnStack: RETURN_STACK, status: STATUS} = data.layout
const VIDEO_SIZE = REGISTERS - VIDEO, MEMORY_SIZE = VIDEO
const CELLS_END = ofProcessor ? data.layout.padEnd : data.layout.cellsEnd
// what the ports hold: of each its place and how many bytes
const LATCHES = new Map(Object.entries(data.layout.latches))
const FIRST_LATCH = Math.min(...[...LATCHES.values()].map(([at]) => at))

// an instruction of the processor comes with the workspace pointer and the status before it
const steps = ofProcessor
  ? data.steps.map(([at, text, wp, st, ...changes]) => ({at, text: data.texts[text], wp, st, changes}))
  : data.steps.map(([at, text, ...changes]) => ({at, text: data.texts[text], changes}))
// how many steps come before the first that the page has; the numbers of steps that are shown count them
const first = data.from
const last = steps.length
// what comes after so many steps: the next address, and of the processor its workspace pointer and status
const nextAt = number => number < last ? steps[number] : data.last
const nextAddress = number => nextAt(number).at

// Without a source, the instructions that the run came to are in the place of its lines. A program may change its own
// words: then an address has several texts, and is shown with the one of its moment.
const lines = data.lines.length
  ? data.lines.map(([text, at, bytes, name], index) =>
    ({text, at, bytes, size: bytes.length / 2, name: name ?? String(index + 1), isCode: data.code[index] === '1'}))
  : [...new Map(steps.map(step => [step.at, step.text]))].sort((a, b) => a[0] - b[0])
    .map(([at, text]) => ({text, at, bytes: '', size: 1, name: '·', isCode: true}))
const hasSource = data.lines.length > 0

// the line whose bytes are at an address, or -1
const lineOf = new Int32Array(MEMORY_SIZE).fill(-1)
lines.forEach((line, index) => { if (line.size) lineOf.fill(index, line.at, line.at + line.size) })

const stepsOfLines = new Map()
steps.forEach((step, index) => {
  const line = lineOf[step.at]
  if (!stepsOfLines.has(line)) stepsOfLines.set(line, [])
  stepsOfLines.get(line).push(index + 1)
})
const stepsOfLine = line => stepsOfLines.get(line) ?? []

function textOfLine(index, number) {
  const line = lines[index], numbers = stepsOfLine(index)
  return hasSource ? line.text : steps[(numbers.findLast(it => it <= number) ?? numbers[0]) - 1].text
}

// the places of words that instructions of GPL name
const wordStarts = new Set(data.words)

// whether the two bytes from a place on are a word: both in the cells, or in one other part of the memory
const isWhole = at => at < REGISTERS - 1 && at !== VIDEO - 1 && at !== CELLS_END - 1

// A change is a place, its bytes in hexadecimal, and how often these are there one after the other.
const lengthOf = change => change[1].length / 2 * (change[2] ?? 1)
const covers = (change, at) => at >= change[0] && at < change[0] + lengthOf(change)

function apply(memory, changes) {
  for (const [at, digits, times] of changes) {
    if (times) memory.fill(parseInt(digits, 16), at, at + times)
    else for (let i = 0; i < digits.length; i += 2) memory[at + i / 2] = parseInt(digits.slice(i, i + 2), 16)
  }
}

// Every 128th memory is kept after it was made; the others are made from the kept one before them.
const EVERY = 128
const kept = new Map([[0, new Uint8Array(PLACES)]])
apply(kept.get(0), data.first)

function memoryAt(number) {
  let from = number - number % EVERY
  while (!kept.has(from)) from -= EVERY
  const memory = kept.get(from).slice()
  for (let i = from + 1; i <= number; i++) {
    apply(memory, steps[i - 1].changes)
    if (i % EVERY === 0) kept.set(i, memory.slice())
  }
  return memory
}

// the steps that change one of some bytes
function stepsThatChange(at, width) {
  const is = change => change[0] < at + width && at < change[0] + lengthOf(change)
  return steps.flatMap((step, index) => step.changes.some(is) ? [index + 1] : [])
}

// whether a step changes a byte from a place on and before another one
const isTouched = (from, to) => steps.some(step => step.changes.some(change =>
  change[0] < to && from < change[0] + lengthOf(change)))
