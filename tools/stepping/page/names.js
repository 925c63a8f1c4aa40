// How numbers, places and elements are written.

const find = id => document.getElementById(id)
const hex = (value, digits = 4) => '>' + value.toString(16).toUpperCase().padStart(digits, '0')
const byte = value => hex(value, 2).slice(1)
const character = value => value >= 32 && value < 127 ? String.fromCharCode(value) : '.'
// a number of steps as it is shown: those before the first of the page count too
const shownNumber = number => first + number
const NUMBERS = new Intl.NumberFormat('en')
const grouped = count => NUMBERS.format(count)
const counted = (count, what = 'step') => `${grouped(count)} ${what}${count === 1 ? '' : 's'}`

function make(tag, text, set = {}) {
  const element = Object.assign(document.createElement(tag), set)
  if (text !== undefined) element.textContent = text
  return element
}

// what the cells are for that GPL itself uses
const MEANINGS = new Map(ofProcessor ? [] : [[DATA_STACK, 'data stack'], [RETURN_STACK, 'return stack'],
  [CELLS + 0x78, 'random number'], [STATUS, 'status'], [CELLS + 0x7D, 'character'], [CELLS + 0x7E, 'its row'],
  [CELLS + 0x7F, 'its column'], [CELLS + 0xC0, 'random seed'], [CELLS + 0xC1, 'random seed']])

const namesOf = new Map()
const addName = (name, at) => namesOf.set(at, [...new Set([...namesOf.get(at) ?? [], name])])
for (const [name, value] of data.names) addName(name, value)
for (const [name, at] of data.places) addName(name, at)

const LATCH_TEXTS = {VA: ['video address', 'its low byte'], VF: ['video byte fetched'],
  VH: ['video byte held', 'the byte'], GA: ['GROM address', 'its low byte'], GF: ['GROM byte fetched'],
  GH: ['GROM half written']}
const latchNames = new Map([...LATCHES].flatMap(([name, [at]]) => LATCH_TEXTS[name].map((text, i) => [at + i, text])))

// a place without its names: >8302, V>0021 or a register of the video processor
function bare(at) {
  return at >= FIRST_LATCH ? latchNames.get(at) : at >= REGISTERS ? `VR${at - REGISTERS}`
    : at >= VIDEO ? 'V' + hex(at - VIDEO) : hex(at)
}

// the register of a workspace that has a place, if one has it
function registerName(at, wp) {
  const offset = ofProcessor ? at - wp : -1
  return offset >= 0 && offset < 32 ? [`R${offset >> 1}`] : []
}

const placeName = at => [...namesOf.get(at) ?? [], ...registerName(at, nextAt(now).wp), bare(at)].join(' ')

// the line that has an address, as it is called
const lineName = at => lineOf[at] < 0 || !hasSource ? '' : `line ${lines[lineOf[at]].name}`
// an address of GROM with its labels and its line
const codeName = at => [hex(at), ...(namesOf.get(at) ?? []), lineName(at)].filter(Boolean).join(' ')
// the name of a routine
const routineName = at => (namesOf.get(at) ?? [])[0] ?? hex(at)
