"""The interpreter's own words on MAME's processor, running random GPL programs, step by step beside `ti_debug gsteps`."""
import random
import tempfile

from lib.dump import dump, words as listed
from packing.image import GROM, packed
from packing.report import CHIP
from peering import mame
from peering.result import Part
from stepping.places import CELLS, CELLS_END, END, make
from stepping.run import first_state, step_of
from gpl_assembler import Refused, assemble
from gpl_programs import program
from gpl_sources import text_of

# the words of the interpreter begin with these addresses: where it starts, where a step begins, where it stops
ENTRIES, WORKSPACE, CARTRIDGE, GROMS = 0x2000, 0x83E0, 0x6000, 0xA000
VIDEO = 0x4000
SCRIPT = f"""
local programs, words = io.open("programs"), io.open("interpreter"):read("a")
local space = cpu.spaces["program"]
local cartridge = machine.memory.regions[":gromport:single:cartridge:grom_contents"]
local video = machine.devices[":vdp"].spaces["vram"]
local log, limit, steps, number, placed = nil, 0, 0, 0, {{}}
-- a tap ends if nothing holds it
taps = {{}}
local function word_of(at) return words:sub(2 * (at - {ENTRIES}) + 1, 2 * (at - {ENTRIES}) + 4) end
local function entry(number) return tonumber(word_of({ENTRIES} + 2 * number), 16) end
local step, stop, exit = entry(1), entry(2), entry(3)
local function close()
  log:close()
  log = nil
  local file = io.open(number .. ".video", "wb")
  for at = 0, {VIDEO - 1} do file:write(string.char(video:read_u8(at))) end
  file:close()
end
local function prepare()
  local head = programs:read()
  if not head then return false end
  number, steps = number + 1, 0
  local at_first, most = head:match("(%x+) (%d+)")
  limit = tonumber(most)
  for at in pairs(placed) do cartridge:write_u8(at, 0) end
  placed = {{}}
  local line = programs:read()
  while line and line ~= "" do
    local at = tonumber(line:sub(1, 4), 16) - {CARTRIDGE}
    for byte in line:sub(5):gmatch("%x%x") do
      cartridge:write_u8(at, tonumber(byte, 16))
      placed[at] = true
      at = at + 1
    end
    line = programs:read()
  end
  for at = 0, {VIDEO - 1} do video:write_u8(at, 0) end
  for at = 0x8300, 0x83FE, 2 do command(string.format("w@0x%04X=0", at)) end
  for at = {ENTRIES}, {ENTRIES} + #words // 2 - 2, 2 do command(string.format("w@0x%04X=0x%s", at, word_of(at))) end
  command("w@0x{WORKSPACE:04X}=0x" .. at_first)
  command("wp=0x{WORKSPACE:04X}")
  log = io.open(number .. ".log", "w")
  return true
end
local function is_over()
  local at = cpu.state["PC"].value
  return not log or at == stop or at == exit
end
local function save()
  if log then close() end
end
taps[1] = space:install_read_tap(step, step + 1, "step", function(offset, data, mask)
  -- a branch reads a word there before it is fetched
  if log and cpu.state["PC"].value == step then
    log:write("S\\n")
    steps = steps + 1
    if steps > limit then close() end
  end
end)
taps[2] = space:install_write_tap({CELLS}, 0x83FF, "cells", function(offset, data, mask)
  if log then log:write(string.format("%04X%04X%04X\\n", offset, data, mask)) end
end)
cases(prepare, is_over, save, 3600)
"""


def bytes_of(image):
    """The bytes of an image for the script."""
    rows, after = [], None
    for at, byte in sorted(image.items()):
        if at == after:
            rows[-1] += f'{byte:02X}'
        else:
            rows.append(f'{at:04X}{byte:02X}')
        after = at + 1
    return ''.join(f'{row}\n' for row in rows) + '\n'


def their_states(path):
    """The cells at the beginning of each step, by the words that MAME's processor wrote."""
    memory = bytearray(0x100)
    with open(path, encoding='ascii') as log:
        for line in log:
            if line == 'S\n':
                yield bytes(memory[:CELLS_END - CELLS])
                continue
            at, data, mask = (int(line[place:place + 4], 16) for place in (0, 4, 8))
            at = (at - CELLS) & 0xFE
            for half, shift in ((0, 8), (1, 0)):
                if mask >> shift & 0xFF:
                    memory[at + half] = data >> shift & 0xFF


def our_states(lines):
    """The cells before each step that is made and after the last, by the changes that `gsteps` shows."""
    memory = bytearray(END)
    make(memory, first_state())
    yield bytes(memory[CELLS:CELLS_END])
    for line in lines:
        step = step_of(line)
        if not step:
            return
        make(memory, step.changes)
        yield bytes(memory[CELLS:CELLS_END])


def compare(part, case, run, place, number):
    """Compares the run of a program."""
    text = run.out.decode('latin-1')
    ours, theirs = list(our_states(text.splitlines())), list(their_states(f'{place}/{number}.log'))
    for step, (our, their) in enumerate(zip(ours, theirs)):
        same = our == their
        part.add(same, lambda: f'{case}: the cells after {step} steps: {our.hex()}; MAME: {their.hex()}')
        if not same:
            return
    part.add(len(ours) == len(theirs), lambda: f'{case}: {len(ours) - 1} steps; MAME: {len(theirs) - 1}')
    with open(f'{place}/{number}.video', 'rb') as video:
        their = video.read()
    part.add(their == dump(text).vdp, lambda: f'{case}: the video memory differs at '
             f'{next(at for at, (a, b) in enumerate(zip(their, dump(text).vdp)) if a != b):04X}')


def in_chips(addresses):
    """Whether addresses are all in the chips of a cartridge, the first 6,144 bytes of the GROMs from >6000 on."""
    return all(at >= CARTRIDGE and at % GROM < CHIP for at in addresses)


def programs_of(debug, seed, count, limit):
    """Random programs that have an entry: the source, its image, and the run by `gsteps`."""
    made, number = [], 0
    while len(made) < count:
        number += 1
        chance = random.Random(f'{seed} {number}')
        text = text_of(chance, program(chance))
        try:
            found = assemble(text)
        except Refused:
            continue
        run = debug.run('gsteps', str(limit), given=text.encode('latin-1'))
        if found.entry is None or run.status not in (0, 7) or not in_chips(found.image):
            continue
        made.append((f'{seed} {number}', found, run))
    return made


def compared(bench, debug, count, limit, seed, folder=None):
    """Compares the runs of so many programs, of up to so many steps each."""
    part = Part(f'steps of {count:,} random GPL programs, and the video memory in the end')
    interpreter = listed(bench.run('interp').out.decode())
    made = programs_of(debug, seed, count, limit)
    with tempfile.TemporaryDirectory(dir=folder) as place:
        with open(f'{place}/programs', 'w', encoding='ascii') as text:
            for _, found, _ in made:
                text.write(f'{found.entry:04X} {limit}\n{bytes_of(found.image)}')
        with open(f'{place}/interpreter', 'w', encoding='ascii') as text:
            last = max(interpreter)
            text.write(''.join(f'{interpreter.get(at, 0):04X}' for at in range(ENTRIES, last + 2, 2)))
        with open(f'{place}/game.rpk', 'wb') as cartridge:
            cartridge.write(packed('game', bytes(GROMS)))
        mame.run(place, mame.rom_of(bench, interpreter[ENTRIES]), SCRIPT, '-cart', f'{place}/game.rpk')
        for number, (case, _, run) in enumerate(made, 1):
            compare(part, case, run, place, number)
    return part
