// The states that conditions are asked of, and the words that mean the same in each run.

// the bits of the status; GPL Programmer's Guide, "Status byte", and TMS9900 data manual, "Status register"
const STATUS_BITS = ofProcessor
  ? {LGT: 0x8000, AGT: 0x4000, EQ: 0x2000, C: 0x1000, OV: 0x0800, OP: 0x0400, X: 0x0200}
  : {H: 0x80, GT: 0x40, COND: 0x20, CARRY: 0x10, OVF: 0x08}

// the place after a number of bytes, in its own part of the memory
const moved = (place, offset) => place >= REGISTERS ? place + offset
  : place >= VIDEO ? VIDEO + (place - VIDEO + offset) % VIDEO_SIZE : (place + offset) % MEMORY_SIZE

function numberAt(memory, place, size) {
  let value = 0
  for (let offset = 0; offset < size; offset++) value = value * 256 + memory[moved(place, offset)]
  return value
}

const statusOf = state => ofProcessor ? state.st : state.memory[STATUS]

// What a word means that is no name of a source, as a function from a state to a number.
function builtIn(word) {
  if (/^VR[0-7]$/.test(word)) return state => state.memory[REGISTERS + +word[2]]
  const bit = Object.hasOwn(STATUS_BITS, word) ? STATUS_BITS[word] : 0
  if (bit) return state => statusOf(state) & bit ? 1 : 0
  const found = {STEP: state => state.number, DEPTH: state => state.depth, PC: state => state.pc, ST: statusOf,
    ...ofProcessor ? {WP: state => state.wp} : {}}
  return Object.hasOwn(found, word) ? found[word] : undefined
}

// The state after a number of steps, of memories that are given; the state before the last of them is its own.
function stateOf(number, memory, before) {
  const at = (number, memory) => ({number: shownNumber(number), memory, pc: nextAddress(number), wp: nextAt(number).wp ?? 0,
    st: nextAt(number).st ?? 0, depth: depths[number]})
  const state = at(number, memory)
  state.old = number ? at(number - 1, before) : state
  state.old.old = state.old
  return state
}

// what names mean: of each name of memory its place and its bytes, and the values of all names
const placesOfNames = new Map(data.places.map(([name, at, size]) => [name.toUpperCase(), {at, size}]))
const valuesOfNames = new Map(data.names.map(([name, value]) => [name.toUpperCase(), value]))
