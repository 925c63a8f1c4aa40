// The screen, and the registers of the video processor (TMS9918A data manual, "Display modes", "Write-only registers").

const COLOURS = [[0, 0, 0], [0, 0, 0], [33, 200, 66], [94, 220, 120], [84, 85, 237], [125, 118, 252], [212, 82, 77],
  [66, 235, 245], [252, 85, 84], [255, 121, 120], [212, 193, 84], [230, 206, 128], [33, 176, 59], [201, 91, 186],
  [204, 204, 204], [255, 255, 255]]
const POINTS = COLOURS.map(colour => new Uint32Array(new Uint8Array([...colour, 255]).buffer)[0])

const register = number => memory[REGISTERS + number]
const video = at => memory[VIDEO + at % VIDEO_SIZE]
const TABLES = {2: [16, 1024], 3: [256, 64], 4: [8, 2048], 5: [128, 128], 6: [8, 2048]}
// the address of the table that a register places
const tableAt = number => register(number) % TABLES[number][0] * TABLES[number][1]

function modeName() {
  const bits = (register(1) & 0x18) | (register(0) & 2)
  return {0: 'graphics mode I', 0x10: 'text mode', 8: 'multicolor mode', 2: 'graphics mode II'}[bits] ??
    'no mode of the manual'
}

// whether the screen has several characters, and none of them a pattern
function lacksPatterns() {
  const names = tableAt(2), patterns = tableAt(4)
  const codes = [...new Set(Array.from({length: 768}, (_, i) => video(names + i)))]
  const hasPattern = code => Array.from({length: 8}, (_, line) => video(patterns + 8 * code + line)).some(it => it)
  return codes.length > 1 && !codes.some(hasPattern)
}

// The characters whose patterns are empty, by the browser's own letters: in the colours of their groups.
function drawLetters(context, names, patterns, colours) {
  context.font = '8px ui-monospace, monospace'
  context.textBaseline = 'top'
  for (let i = 0; i < 768; i++) {
    const code = video(names + i), colour = video(colours + (code >> 3)) >> 4
    const isEmpty = Array.from({length: 8}, (_, line) => video(patterns + 8 * code + line)).every(it => !it)
    if (code <= 32 || code > 126 || !isEmpty) continue
    context.fillStyle = `rgb(${(colour ? COLOURS[colour] : [128, 128, 128]).join()})`
    context.fillText(String.fromCharCode(code), 8 * (i % 32) + 1, 8 * (i >> 5))
  }
}

function drawPicture() {
  const names = tableAt(2), colours = tableAt(3), patterns = tableAt(4), backdrop = register(7) % 16
  const isOn = register(1) & 0x40 && modeName() === 'graphics mode I', context = find('picture').getContext('2d')
  const picture = new ImageData(256, 192), points = new Uint32Array(picture.data.buffer)
  for (let y = 0, point = 0; y < 192; y++)
    for (let x = 0; x < 256; x += 8) {
      const code = video(names + 32 * (y >> 3) + (x >> 3))
      const pair = video(colours + (code >> 3)), line = video(patterns + 8 * code + y % 8)
      for (let bit = 7; bit >= 0; bit--)
        points[point++] = POINTS[(!isOn ? 0 : line >> bit & 1 ? pair >> 4 : pair & 15) || backdrop]
    }
  context.putImageData(picture, 0, 0)
  const isEmpty = isOn && lacksPatterns()
  if (isOn && find('font').checked) drawLetters(context, names, patterns, colours)
  const without = isEmpty ? ': no patterns are loaded for the characters shown, so there are colours alone; a console ' +
    'has its own characters, and a stand-in font can be drawn' : ''
  const more = isOn ? without : ': no picture is drawn'
  find('mode').textContent = register(1) & 0x40 ? modeName() + more : 'The picture is off (register 1).'
}

function textRow(from, columns) {
  const parts = []
  let plain = ''
  for (let column = 0; column < columns; column++) {
    const at = VIDEO + (from + column) % VIDEO_SIZE, text = character(memory[at])
    if (changed.has(at)) {
      parts.push(plain, make('mark', text))
      plain = ''
    } else plain += text
  }
  return [...parts, plain + '\n'].filter(part => part !== '')
}

function drawText() {
  const columns = modeName() === 'text mode' ? 40 : 32, names = tableAt(2)
  find('text').replaceChildren(...Array.from({length: 24}, (_, row) => textRow(names + columns * row, columns)).flat())
}

find('font').onchange = drawPicture
whenOpen('screen-part', () => {
  drawPicture()
  drawText()
})
