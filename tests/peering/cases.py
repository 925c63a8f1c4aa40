"""Programs in MAME, one after the other: each is placed, runs until it is at its end, and its data are kept."""
from peering import mame
from peering.programs import DATA, END

# what is done as a program begins, so that each of its instructions is logged up to its end
TRACE = f"""command(string.format('trace %d.trace,maincpu,noloop,{{tracelog "%%04X %%04X %%04X ",pc,wp,st}}', number))
  command("bpset 0x{END:X},1,{{trace off; bpclear; g}}")"""
SCRIPT = f"""
local programs, rom = io.open("programs"), machine.memory.regions[":console_rom"]
local number = 0
local function put(at, word)
  if at < {mame.ROM_BYTES} then
    rom:write_u8(at, tonumber(word:sub(1, 2), 16))
    rom:write_u8(at + 1, tonumber(word:sub(3, 4), 16))
  else
    command(string.format("w@0x%04X=0x%s", at, word))
  end
end
local function prepare()
  local line = programs:read()
  if not line then return false end
  number = number + 1
  for at = 0x8300, 0x837E, 2 do put(at, "0000") end
  while line and line ~= "" do
    local at = tonumber(line:sub(1, 4), 16)
    for word in line:sub(5):gmatch("%x%x%x%x") do
      put(at, word)
      at = at + 2
    end
    line = programs:read()
  end
  BEGIN
  return true
end
local function is_over() return stays_at({END}) end
local function save()
  command("trace off")
  command(string.format("save %d.pad,0x8300,0x80", number))
  command(string.format("save %d.high,0x{DATA[1].start:X},0x{len(DATA[1]):X}", number))
  ALSO
end
cases(prepare, is_over, save, 60)
"""


def script_of(begin='', also=''):
    """The script, with what is done as a program begins, and what else is kept of it."""
    return SCRIPT.replace('BEGIN', begin).replace('ALSO', also)


def listing(words):
    """The words of a program for the script, by their addresses."""
    rows, after = [], None
    for at, word in sorted(words.items()):
        if at == after:
            rows[-1] += f'{word:04X}'
        else:
            rows.append(f'{at:04X}{word:04X}')
        after = at + 2
    return '\n'.join(rows) + '\n\n'
