// What an instruction compared: it changes nothing but the status, so its operands are shown as they were.

const WITH_TWO = ofProcessor ? /^(C|CB|COC|CZC|CI) ([^,]+),([^,]+)$/ : /^(D?(?:CHE?|CG[TE]|CEQ|CLOG)) ([^,]+),([^,]+)$/
const WITH_ZERO = ofProcessor ? /(?!)/ : /^(D?CZ) ([^,]+)$/

// An operand as a condition reads it; null if it does not.
function operandValue(text, width, state) {
  try {
    return condition(/^>/.test(text) ? text : `${text.replace(/\+$/, '')}:${width}`)(state)
  } catch (error) {
    if (error instanceof Wrong) return null
    throw error
  }
}

// The operands of a comparison and the bytes of each; null if it is none. An operand that moves a register which the
// other one uses is read at another moment, and is not shown.
function comparedOperands(text) {
  const found = WITH_TWO.exec(text) ?? WITH_ZERO.exec(text)
  if (!found) return null
  const [, operation, ...operands] = found, width = ofProcessor ? operation === 'CB' ? 1 : 2 : operation[0] === 'D' ? 2 : 1
  const register = /\*(R[0-9]+)\+$/.exec(operands[0])
  if (register && new RegExp(`${register[1]}(?![0-9])`).test(operands[1])) return null
  return {operands, width}
}

// The values that a step compared, by the state before it.
function comparedValues(number) {
  const found = number ? comparedOperands(steps[number - 1].text) : null
  if (!found) return []
  const state = stateOf(number, memory, before).old
  const values = found.operands.map(text => operandValue(text, found.width, state))
  return values.includes(null) ? [] : values.map(value => ({value, width: found.width}))
}

function comparedText() {
  const texts = comparedValues(now).map(({value, width}) => `${hex(value, 2 * width)} (${value})`)
  return texts.length ? `  compared ${texts.join(' with ')}` : ''
}
