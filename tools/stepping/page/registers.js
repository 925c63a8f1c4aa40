// The registers of the video processor, and what they mean.

function registerTexts() {
  const one = register(1), seven = register(7)
  const flags = [one & 0x40 ? 'picture on' : 'picture off', one & 0x20 ? 'interrupt' : '',
    one & 2 ? 'large sprites' : '', one & 1 ? 'magnified' : '']
  return [modeName(), flags.filter(Boolean).join(', '),
    `screen at ${hex(tableAt(2))}`, `colours at ${hex(tableAt(3))}`, `patterns at ${hex(tableAt(4))}`,
    `sprites at ${hex(tableAt(5))}`, `sprite patterns at ${hex(tableAt(6))}`,
    `text colour ${seven >> 4}, backdrop ${seven & 15}`]
}

for (let number = 0; number < 8; number++) {
  const row = make('tr'), cell = make('td'), button = make('button', `VR${number}`)
  button.onclick = () => choose(REGISTERS + number, 1)
  cell.append(button)
  row.append(cell, make('td'), make('td'))
  find('registers').append(row)
}
oneStop(find('registers'))

whenOpen('registers-part', () => registerTexts().forEach((text, number) => {
  const [, value, meaning] = find('registers').rows[number].cells
  value.textContent = hex(register(number), 2)
  value.className = changed.has(REGISTERS + number) ? 'changed' : ''
  meaning.textContent = text
}))
