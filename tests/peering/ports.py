"""Random accesses to the ports of the video processor and of the GROMs, by `ti_debug steps` and by MAME's."""
import random
import tempfile

from lib.command import Stopped
from lib.dump import dump, expansion, words as listed
from peering import mame
from peering.cases import listing, script_of
from peering.known import HALF_GROM, HALF_VIDEO, MOVED, REGISTER_PAIR, of_register
from peering.programs import DATA, END
from peering.result import Part

VIDEO_READ, VIDEO_STATUS, VIDEO_WRITE, VIDEO_ADDRESS = 0x8800, 0x8802, 0x8C00, 0x8C02
GROM_READ, GROM_READ_ADDRESS, GROM_WRITE, GROM_ADDRESS = 0x9800, 0x9802, 0x9C00, 0x9C02
# what is read is kept here, byte after byte
KEPT, VIDEO, REGISTERS = DATA[1], 0x4000, 8
# halves of video addresses, so few that most reads find a byte that was written; from the last ones the address wraps
FOR_WRITING = 0x40
LOW, HIGH = (0, 1, 2, 3, 0xFD, 0xFE, 0xFF), (0, 1, 0x3F, FOR_WRITING, FOR_WRITING | 1, FOR_WRITING | 0x3F)
BEGIN = ('       AORG >A000', 'START  LIMI 0', '       LWPI >8300', f'       LI   R10,>{KEPT.start:04X}')
ENDING = (f'       B    @>{END:04X}', f'       AORG >{END:04X}', '       JMP  $', '       END  START', '')
# more instructions than any program makes
MOST = 10_000
SAVE = f"""
  local file, video = io.open(number .. ".video", "wb"), machine.devices[":vdp"].spaces["vram"]
  for at = 0, {VIDEO - 1} do
    file:write(string.char(video:read_u8(at)))
    video:write_u8(at, 0)
  end
  for register = 0, {REGISTERS - 1} do
    local item = machine.devices[":vdp"].items[string.format("0/m_Regs[%d]", register)]
    file:write(string.char(emu.item(item):read(0)))
  end
  file:close()"""
SCRIPT = script_of(also=SAVE)


class Accesses:
    """A program of accesses while it is made. Of each byte that it keeps it has the reason why it may be another in MAME,
    or None. Nothing is written to video memory where MAME's address may be another."""

    def __init__(self, chance):
        self.chance, self.lines, self.kept = chance, [*BEGIN], []
        # of the video address, of the byte that is fetched ahead, and of the address in the GROMs
        self.video_reason = self.ahead_reason = self.grom_reason = None
        self.is_moved = False
        for number in range(REGISTERS):
            self.video_register(number)
        self.video_pair(0)
        self.grom_pair()

    def write(self, port, byte):
        self.lines += [f'       LI   R1,>{byte:02X}00', f'       MOVB R1,@>{port:04X}']

    def keep(self, port, reason):
        """Reads a byte that is kept."""
        self.lines.append(f'       MOVB @>{port:04X},*R10+')
        self.kept.append(reason)

    def video_pair(self, high=None):
        """The address, for reading or for writing."""
        high = self.chance.choice(HIGH) if high is None else high
        self.write(VIDEO_ADDRESS, self.chance.choice(LOW))
        self.write(VIDEO_ADDRESS, high)
        self.video_reason = None
        if high < FOR_WRITING:
            self.ahead_reason = None

    def video_register(self, number=None):
        """A register, which takes a byte. Of register 1 the bit is set without which the chip mixes addresses up."""
        number = self.chance.randrange(REGISTERS) if number is None else number
        self.write(VIDEO_ADDRESS, self.chance.choice(LOW) | (0x80 if number == 1 else 0))
        self.write(VIDEO_ADDRESS, 0x80 | number)
        self.video_reason = self.video_reason or REGISTER_PAIR

    def video_half(self):
        """A first byte without a second, and a read after which none is held."""
        self.write(VIDEO_ADDRESS, self.chance.choice(LOW))
        self.video_reason = HALF_VIDEO
        self.chance.choice((self.video_status, self.video_read))()

    def video_status(self):
        self.lines.append(f'       MOVB @>{VIDEO_STATUS:04X},R1')

    def video_read(self):
        self.keep(VIDEO_READ, self.ahead_reason)
        self.ahead_reason = self.video_reason

    def video_write(self):
        if not self.video_reason:
            self.write(VIDEO_WRITE, self.chance.randrange(256))
            self.ahead_reason = None

    def grom_pair(self):
        """The address, which then counts."""
        self.write(GROM_ADDRESS, self.chance.randrange(256))
        self.write(GROM_ADDRESS, self.chance.randrange(256))
        self.grom_reason, self.is_moved = None, False

    def grom_half(self):
        """A first byte without a second, and a read after which none is held."""
        self.write(GROM_ADDRESS, self.chance.randrange(256))
        self.grom_reason = HALF_GROM
        self.chance.choice((self.grom_read, self.grom_address))()

    def grom_read(self):
        self.keep(GROM_READ, None)
        if self.is_moved:
            self.grom_reason = self.grom_reason or MOVED

    def grom_address(self):
        self.keep(GROM_READ_ADDRESS, self.grom_reason)
        self.is_moved = True

    def grom_write(self):
        self.write(GROM_WRITE, self.chance.randrange(256))

    def made(self):
        """The source of a program that keeps as many bytes as there is room for, and their reasons."""
        kinds = (self.video_pair, self.video_register, self.video_half, self.video_status, self.video_read,
                 self.video_write, self.grom_pair, self.grom_half, self.grom_read, self.grom_address, self.grom_write)
        while len(self.kept) < len(KEPT) - 1:
            self.chance.choices(kinds, (3, 1, 1, 2, 6, 6, 3, 1, 5, 5, 1))[0]()
        return '\n'.join([*self.lines, *ENDING]).encode(), self.kept


def compare(part, case, kept, run, place, number):
    """Compares the bytes that a program kept, and the video memory and registers in its end."""
    text = run.out.decode('latin-1')
    ours = expansion(text)[1][KEPT.start - 0xA000:]
    with open(f'{place}/{number}.high', 'rb') as high, open(f'{place}/{number}.video', 'rb') as video:
        theirs, memory = high.read(), video.read()
    for at, reason in enumerate(kept):
        our, their = ours[at], theirs[at]
        part.add(our == their, lambda: f'{case}: byte {at}: >{our:02X}; MAME: >{their:02X}', reason)
    shown = dump(text)
    part.add(memory[:VIDEO] == shown.vdp, lambda: f'{case}: the video memory differs')
    for register, (our, their) in enumerate(zip(shown.registers, memory[VIDEO:])):
        part.add(our == their, lambda: f'{case}: video register {register}: >{our:02X}; MAME: >{their:02X}',
                 of_register(register, our, their))


def compared(bench, debug, count, seed, folder=None):
    """Compares so many programs."""
    part = Part(f'bytes at ports, the video memory and registers in the end, of {count:,} random programs')
    made = [Accesses(random.Random(f'{seed} {number}')).made() for number in range(1, count + 1)]
    with tempfile.TemporaryDirectory(dir=folder) as place:
        modules = [bench.run('asm', given=source) for source, _ in made]
        if any(module.status for module in modules):
            raise Stopped(f'asm: {next(module.fault for module in modules if module.status)}')
        with open(f'{place}/programs', 'w', encoding='ascii') as text:
            text.writelines(listing(listed(bench.run('link', given=module.out).out.decode())) for module in modules)
        mame.run(place, mame.rom_of(bench), SCRIPT)
        for number, ((_, kept), module) in enumerate(zip(made, modules), 1):
            compare(part, f'{seed} {number}', kept, debug.run('steps', str(MOST), given=module.out), place, number)
    return part
