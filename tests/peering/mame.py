"""MAME's TI-99/4A: a console with a ROM of our own, and what a script in Lua does with it."""
import os
import pathlib
import shutil
import subprocess

from lib.command import UNREADABLE, Stopped
from lib.dump import words as listed

MACHINE = 'ti99_4a'
# the bytes of the console's ROM: those at even addresses in one file, those at odd ones in the other
ROMS = {'994a_rom_hb.u610': slice(0, None, 2), '994a_rom_lb.u611': slice(1, None, 2)}
GROMS = ('994a_grom0.u500', '994a_grom1.u501', '994a_grom2.u502')
ROM_BYTES, GROM_BYTES, WORKSPACE = 0x2000, 0x1800, 0x83E0
# no window, no sound, and no plugins, with which MAME 0.251 may crash as it starts
QUIET = ('-video', 'none', '-sound', 'none', '-noplugins', '-skip_gameinfo', '-nothrottle', '-ioport', 'peb',
         '-ioport:peb:slot2', '32kmem')
DEBUGGER = ('-debug', '-debugger', 'none')
# The console's own program: it waits at IDLE; and at BEGIN it goes to an address, after instructions that do nothing and
# two reads, after which no half of an address is held at a port: the case before may have ended between two halves.
IDLE, BEGIN = 0x0028, 0x0200
WAITING = """       AORG >0002
       DATA START
       AORG >0024
START  LIMI 0
       JMP  $
       AORG >{begin:04X}
       JMP  $+2
       JMP  $+2
       JMP  $+2
       MOVB @>8802,R5
       MOVB @>9800,R5
       B    @>{target:04X}
       END  START
"""
# the end of a script: MAME may crash as it ends
LAST = '\nlocal function finish()\n  io.open("done", "w"):close()\n  machine:exit()\nend\n'
FIRST = 'local machine = manager.machine\nlocal cpu = machine.devices[":maincpu"]\n'
# Cases one after the other. The program counter may be set in the middle of a jump, which sets it again: so a case is
# only placed while the console waits, and begun until it does not wait any more. A part says how a case is placed
# (`prepare`, which is false after the last), when it is over, and what is kept of it (`save`).
CASES = f"""
local command = function(text) machine.debugger:command(text) end
-- the processor is in a jump to itself there
local function stays_at(place)
  local at = cpu.state["PC"].value
  return at == place or at == place + 2
end
local function waits() return stays_at({IDLE}) end
local function cases(prepare, is_over, save, frames)
  local phase, left = "idle", 0
  emu.register_frame_done(function()
    if phase == "idle" then
      if not waits() then
        command("pc=0x{IDLE:X}")
      elseif prepare() then
        phase, left = "begun", frames
        command("pc=0x{BEGIN:X}")
      else
        finish()
      end
    elseif phase == "begun" and waits() then
      command("pc=0x{BEGIN:X}")
    else
      phase, left = "run", left - 1
      if is_over() or left < 0 then
        save()
        phase = "idle"
      end
    end
  end)
end
"""
SECONDS = 3600
# MAME 0.251 crashes now and then as it starts
ATTEMPTS = 10


def found():
    """The program MAME."""
    path = shutil.which('mame', path=f'{os.environ.get("PATH", "")}:/usr/games')
    if not path:
        raise Stopped('no program mame: Debian has it as the package mame', UNREADABLE)
    return path


def rom_of(program, target=0xA000, source=WAITING):
    """The console's ROM: the words of a source that ti_bench assembles and links, and the workspace in the first word.
    At BEGIN it goes to a target."""
    module = program.run('asm', given=source.format(begin=BEGIN, target=target).encode())
    if module.status:
        raise Stopped(f'the program of the console is refused: {module.fault}')
    words = {0: WORKSPACE, **listed(program.run('link', given=module.out).out.decode('latin-1'))}
    return b''.join(words.get(at, 0).to_bytes(2, 'big') for at in range(0, ROM_BYTES, 2))


def run(folder, rom, script, *words, debugger=True):
    """Runs a script in a folder, from the first moment of a console with this ROM on. A script that uses MAME's debugger
    has it; without it MAME is faster."""
    folder = pathlib.Path(folder)
    roms = folder / 'roms' / MACHINE
    roms.mkdir(parents=True)
    for name, half in ROMS.items():
        (roms / name).write_bytes(rom[half])
    for name in GROMS:
        (roms / name).write_bytes(bytes(GROM_BYTES))
    (folder / 'script.lua').write_text(FIRST + LAST + CASES + script)
    for _ in range(ATTEMPTS):
        subprocess.run([found(), MACHINE, '-rompath', roms.parent, *QUIET, *(DEBUGGER if debugger else ()), *words,
                        '-seconds_to_run', str(10 * SECONDS), '-autoboot_delay', '0', '-autoboot_script', 'script.lua'],
                       cwd=folder,
                       env={**os.environ, 'SDL_VIDEODRIVER': 'dummy', 'SDL_AUDIODRIVER': 'dummy', 'HOME': str(folder)},
                       stdout=subprocess.DEVNULL, stderr=subprocess.DEVNULL, timeout=SECONDS, check=False)
        if (folder / 'done').exists():
            return
    raise Stopped('the script did not come to its end in MAME', UNREADABLE)
