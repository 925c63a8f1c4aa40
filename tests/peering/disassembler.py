"""Each of the 65,536 words as `dis` lists it, beside MAME's disassembler."""
import re
import tempfile

from lib.command import Stopped
from peering import mame
from peering.known import of_listing
from peering.result import Part

# each word stands before two others, which are its further words if it has any, and else instructions of one word
FURTHER, JUMP, LAST = (0x1234, 0x5678), 'JLE', 'SZCB *R8+,*R9'
ORIGIN, ROOM = 0x40, 2 * (1 + len(FURTHER))
CHUNK = (mame.ROM_BYTES - ORIGIN) // ROOM
SCRIPT = f"""
local rom = machine.memory.regions[":console_rom"]
local first, chunk = 0, 0
emu.register_frame_done(function()
  if first > 0xFFFF then finish() return end
  for number = 0, {CHUNK - 1} do
    for place, value in ipairs({{(first + number) & 0xFFFF, {FURTHER[0]}, {FURTHER[1]}}}) do
      local at = {ORIGIN} + number * {ROOM} + 2 * (place - 1)
      rom:write_u8(at, value >> 8)
      rom:write_u8(at + 1, value & 0xFF)
    end
  end
  machine.debugger:command(string.format("dasm %d.text,0x{ORIGIN:X},0x{CHUNK * ROOM:X}", chunk))
  first, chunk = first + {CHUNK}, chunk + 1
end)
"""
ROW = re.compile(r'([0-9A-F]{4}): (?:[0-9A-F]{4} )+ *(\S.*)')


def chunks():
    """The words that are listed at a time, as ranges."""
    return [range(first, min(first + CHUNK, 0x10000)) for first in range(0, 0x10000, CHUNK)]


def ours(program, words):
    """What `dis` lists of words, each with the two after it."""
    data = b''.join(value.to_bytes(2, 'big') for word in words for value in (word, *FURTHER))
    run = program.run('dis', f'{ORIGIN:04X}', given=data)
    if run.status:
        raise Stopped(f'dis: {run.fault}')
    lines, found = iter(run.out.decode().splitlines()[1:]), []
    ahead = next(lines).strip()
    for number, _ in enumerate(words):
        found.append(ahead)
        ahead = next(lines).strip()
        target = ORIGIN + number * ROOM + 4 + 2 * (FURTHER[0] & 0xFF)
        if ahead == f'{JUMP} >{target:04X}':
            ahead = next(lines).strip()
        if ahead == LAST:
            ahead = next(lines).strip()
    return found


def theirs(text, words):
    """What MAME lists of them: an operation, and its operands after a blank."""
    rows = {int(row[1], 16): row[2] for row in map(ROW.match, text.splitlines()) if row}
    return [' '.join(rows[ORIGIN + number * ROOM].upper().split()) for number, _ in enumerate(words)]


def compared(program, folder=None):
    """Compares all words."""
    part = Part('words as `dis` lists them')
    with tempfile.TemporaryDirectory(dir=folder) as place:
        mame.run(place, mame.rom_of(program), SCRIPT)
        for number, words in enumerate(chunks()):
            with open(f'{place}/{number}.text', encoding='latin-1') as text:
                listed = theirs(text.read(), words)
            for word, our, their in zip(words, ours(program, words), listed):
                part.add(our == their, lambda: f'>{word:04X}: {our}; MAME: {their}', of_listing(word, our, their))
    return part
