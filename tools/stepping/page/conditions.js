// What a condition means: a question to the state after a step, whose answer is a number. tools/debug reads the same
// words by tools/debugging/conditions.py, and tests/page compares both on many texts and runs.

const LONGEST = 400, DEEPEST = 20
const KEYWORDS = new Set(['AND', 'OR', 'NOT', 'OLD', 'CHANGES'])
const COMPARISONS = {'<=': (a, b) => a <= b, '>=': (a, b) => a >= b, '<>': (a, b) => a !== b, '!=': (a, b) => a !== b,
  '==': (a, b) => a === b, '=': (a, b) => a === b, '<': (a, b) => a < b, '>': (a, b) => a > b}
const SUMS = {'+': (a, b) => a + b, '-': (a, b) => a - b, '&': (a, b) => (a & b) >>> 0}

class Wrong extends Error {}

// What a text asks, as a function from a state to a number.
function condition(text) {
  if ([...text].length > LONGEST) throw new Wrong(`a condition has at most ${LONGEST} characters`)
  const parser = new Parser(text), found = parser.either()
  if (parser.rest()) parser.fail('"and", "or" or a comparison is wanted')
  return found
}

class Parser {
  constructor(text) { this.text = text; this.at = 0; this.depth = 0 }

  // the rest of the text without its first blanks
  rest() {
    while (this.text[this.at] === ' ' || this.text[this.at] === '\t') this.at++
    return this.text.slice(this.at)
  }

  fail(what) {
    const rest = this.rest()
    throw new Wrong(rest ? `${what}, at "${[...rest].slice(0, 20).join('')}"` : `${what} at the end`)
  }

  takes(text) {
    const isNext = this.rest().startsWith(text)
    if (isNext) this.at += text.length
    return isNext
  }

  word() { return /^[A-Za-z][A-Za-z0-9]*(?:\.[A-Za-z_][A-Za-z0-9_]*)?/.exec(this.rest())?.[0] ?? '' }

  takesWord(wanted) {
    const isNext = this.word().toUpperCase() === wanted
    if (isNext) this.at += wanted.length
    return isNext
  }

  deeper(part) {
    if (++this.depth > DEEPEST) this.fail('too deep')
    const found = part()
    this.depth--
    return found
  }

  either() {
    const parts = [this.both()]
    while (this.takesWord('OR')) parts.push(this.both())
    return parts.length === 1 ? parts[0] : state => +parts.some(part => part(state))
  }

  both() {
    const parts = [this.negated()]
    while (this.takesWord('AND')) parts.push(this.negated())
    return parts.length === 1 ? parts[0] : state => +parts.every(part => part(state))
  }

  negated() {
    if (!this.takesWord('NOT')) return this.compared()
    const part = this.deeper(() => this.negated())
    return state => +!part(state)
  }

  compared() {
    const left = this.sum()
    if (this.takesWord('CHANGES')) return state => +(left(state) !== left(state.old))
    for (const [sign, holds] of Object.entries(COMPARISONS))
      if (this.takes(sign)) {
        const right = this.sum()
        return state => +holds(left(state), right(state))
      }
    return left
  }

  sum() {
    let left = this.value()
    for (;;) {
      const sign = this.rest()[0]
      if (!sign || !Object.hasOwn(SUMS, sign)) return left
      this.at++
      const one = left, two = this.value()
      left = state => SUMS[sign](one(state), two(state))
    }
  }

  // a number, a character, a part in brackets, a value before the step, or the bytes of a place
  value() {
    const rest = this.rest()
    if (rest[0] === '(') {
      this.at++
      const found = this.deeper(() => this.either())
      if (!this.takes(')')) this.fail('")" is wanted')
      return found
    }
    if (this.takesWord('OLD')) {
      const part = this.deeper(() => this.value())
      return state => part(state.old)
    }
    if (/^'[ -&(-~]'/.test(rest)) {
      this.at += 3
      return () => rest.charCodeAt(1)
    }
    if (/^[0-9>]/.test(rest)) {
      const value = this.number()
      return () => value
    }
    return /^[Vv]?[@*]/.test(rest) ? this.operand() : this.named()
  }

  number() {
    const found = /^(?:>([0-9A-Fa-f]{1,4})(?![0-9A-Fa-f])|([0-9]{1,5})(?![0-9]))/.exec(this.rest())
    const value = !found ? MEMORY_SIZE : found[1] ? parseInt(found[1], 16) : +found[2]
    if (value > 0xFFFF) this.fail('a number from 0 to 65535, or > and up to four hexadecimal digits, is wanted')
    this.at += found[0].length
    return value
  }

  // the length after a colon
  size(usual) {
    if (!this.takes(':')) return usual
    const found = /^[1-4](?![0-9])/.exec(this.rest())
    if (!found) this.fail('a length from 1 to 4 is wanted')
    this.at++
    return +found[0]
  }

  // the number at a place, which is found by a state, or is the same in each
  place(placeOf, usual, fixed) {
    const size = this.size(usual)
    if (fixed !== undefined && !ofProcessor && fixed < VIDEO && !(fixed >= CELLS && fixed <= CELLS_END - size))
      this.fail('a GPL program sees >8300 to >83C1')
    return state => numberAt(state.memory, placeOf(state), size)
  }

  fixed(place, usual) { return this.place(() => place, usual, place) }

  // a number, or a name and a number of bytes after it
  address() {
    if (/^[0-9>]/.test(this.rest())) return this.number()
    const name = this.word(), value = valuesOfNames.get(name.toUpperCase())
    if (!name || value === undefined) this.fail('an address or a name is wanted')
    this.at += name.length
    return (value + this.offset()) % MEMORY_SIZE
  }

  offset() {
    const found = /^\.([0-9]{1,3})(?![0-9])/.exec(this.rest())
    this.at += found ? found[0].length : 0
    return found ? +found[1] : 0
  }

  register() {
    const found = /^[Rr]([0-9]{1,2})(?![0-9A-Za-z])/.exec(this.rest())
    if (!found || +found[1] > 15) this.fail('a register from R0 to R15 is wanted')
    this.at += found[0].length
    const offset = 2 * +found[1]
    return state => (state.wp + offset) % MEMORY_SIZE
  }

  operand() {
    const inVideo = /[Vv]/.test(this.rest()[0])
    this.at += +inVideo
    const isDirect = this.takes('@')
    if (!isDirect) this.at++
    return ofProcessor ? this.processorOperand(isDirect, inVideo) : this.gplOperand(isDirect, inVideo)
  }

  // an address, or the address of a pointer, which is an offset in the cells; and perhaps an index
  gplOperand(isDirect, inVideo) {
    const at = this.address(), index = this.takes('(') ? this.index() : undefined
    if (isDirect && index === undefined) {
      const place = inVideo ? VIDEO + at % VIDEO_SIZE : at
      return this.fixed(place, wordStarts.has(place) ? 2 : 1)
    }
    const base = inVideo || isDirect ? 0 : CELLS
    return this.place(({memory}) => {
      const start = isDirect ? at : base + numberAt(memory, at, 2)
      const more = index === undefined ? 0 : numberAt(memory, index, 2)
      return inVideo ? VIDEO + (start + more) % VIDEO_SIZE : (start + more) % MEMORY_SIZE
    }, 1)
  }

  index() {
    if (!this.takes('@')) this.fail('"@" is wanted')
    const index = this.address()
    if (!this.takes(')')) this.fail('")" is wanted')
    return index
  }

  // memory at an address, with a register as index or without; where a register leads to; or video memory
  processorOperand(isDirect, inVideo) {
    if (inVideo && !isDirect) this.fail('video memory has no pointers here')
    if (inVideo) return this.fixed(VIDEO + this.address() % VIDEO_SIZE, 1)
    if (!isDirect) {
      const register = this.register()
      return this.place(state => numberAt(state.memory, register(state), 2), 2)
    }
    const at = this.address()
    if (!this.takes('(')) return this.fixed(at, 2)
    const register = this.register()
    if (!this.takes(')')) this.fail('")" is wanted')
    return this.place(state => (at + numberAt(state.memory, register(state), 2)) % MEMORY_SIZE, 2)
  }

  // a name of the source, which comes first, or a word that each run has
  named() {
    const name = this.word(), upper = name.toUpperCase(), known = placesOfNames.get(upper)
    if (!name || KEYWORDS.has(upper)) this.fail('a name, a number or a place is wanted')
    if (known) {
      this.at += name.length
      const offset = this.offset(), place = moved(known.at, offset)
      return this.fixed(place, known.size <= 2 && !offset ? known.size : wordStarts.has(place) ? 2 : 1)
    }
    if (valuesOfNames.has(upper)) {
      this.at += name.length
      const value = (valuesOfNames.get(upper) + this.offset()) % MEMORY_SIZE
      return () => value
    }
    if (ofProcessor && /^R[0-9]{1,2}$/.test(upper)) return this.place(this.register(), 2)
    const found = builtIn(upper)
    if (!found) this.fail('no name of the source, and no word of a condition')
    this.at += name.length
    return found
  }
}
