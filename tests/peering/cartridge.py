"""A packed cartridge of tools/cartridge in the port of MAME's console."""
import pathlib
import subprocess
import tempfile

from lib.repository import TOP
from peering import mame
from peering.result import Part

SOURCE = TOP / 'examples/lights/lights.gpl'
# as many bytes as the video memory has, into which a program copies what it reads by the GROM ports
COPIED, AT, END = 0x4000, 0x0300, 0x0340
COPY = f"""       AORG >{AT:04X}
       LI   R1,>6000
       MOVB R1,@>9C02
       SWPB R1
       MOVB R1,@>9C02
       LI   R2,>0040
       MOVB R2,@>8C02
       SWPB R2
       MOVB R2,@>8C02
       LI   R3,>{COPIED:04X}
NEXT   MOVB @>9800,R4
       MOVB R4,@>8C00
       DEC  R3
       JNE  NEXT
       B    @>{END:04X}
       AORG >{END:04X}
       JMP  $
       END  START
"""
SCRIPT = f"""
local video, number = machine.devices[":vdp"].spaces["vram"], 0
local function prepare()
  number = number + 1
  return number == 1
end
local function is_over() return stays_at({END}) end
local function save()
  local file = io.open("video", "wb")
  for at = 0, {COPIED - 1} do file:write(string.char(video:read_u8(at))) end
  file:close()
end
cases(prepare, is_over, save, 600)
"""


def compared(bench, folder=None):
    """Compares the bytes that the processor reads with the image."""
    part = Part('bytes of a packed cartridge')
    with tempfile.TemporaryDirectory(dir=folder) as name:
        place = pathlib.Path(name)
        subprocess.run([TOP / 'tools/cartridge', '--program', bench.path, '-o', place / 'gameG.bin', '--rpk',
                        place / 'game.rpk', SOURCE], check=True)
        image = (place / 'gameG.bin').read_bytes()[:COPIED]
        rom = mame.rom_of(bench, AT, mame.WAITING.replace('       END  START\n', COPY))
        mame.run(place, rom, SCRIPT, '-cart', place / 'game.rpk')
        video = (place / 'video').read_bytes()
    for at, byte in enumerate(image):
        part.add(video[at] == byte, lambda: f'>{0x6000 + at:04X}: >{byte:02X}; MAME: >{video[at]:02X}')
    return part
