"""The console's memory as a program of the processor sees it: read-only memory, expansion memory, the scratchpad, and
the ports of the TMS9918A (its data manual) and of the GROMs (GPL Programmer's Guide). The choices of the profile are
marked. The GROMs hold zeros."""

VDP_READ, VDP_STATUS, VDP_WRITE, VDP_ADDRESS = 0x8800, 0x8802, 0x8C00, 0x8C02
GROM_READ, GROM_READ_ADDRESS, GROM_WRITE, GROM_ADDRESS = 0x9800, 0x9802, 0x9C00, 0x9C02
PORTS = {VDP_READ, VDP_STATUS, VDP_WRITE, VDP_ADDRESS, GROM_READ, GROM_READ_ADDRESS, GROM_WRITE, GROM_ADDRESS}

# what a page of 256 bytes is: nothing that can be written, expansion memory, the scratchpad at four places, ports
NOTHING, EXPANSION, SCRATCHPAD, PORT_PAGE = range(4)
MIRRORS = (0x8000, 0x8100, 0x8200, 0x8300)
PAGES = [NOTHING] * 256
PAGES[0x20:0x40] = [EXPANSION] * 0x20
PAGES[0xA0:] = [EXPANSION] * 0x60
PAGES[0x80:0x84] = [SCRATCHPAD] * 4
for port in PORTS:
    PAGES[port >> 8] = PORT_PAGE


class PortStop(Exception):
    """A word access to a port, which stops the run: a choice of the profile."""


class Ports:
    """The VDP with its memory, address, byte that was fetched ahead and held byte, and the GROMs' counter."""

    def __init__(self):
        self.vdp = bytearray(16384)
        self.registers = [0] * 8
        self.address, self.fetched, self.held = 0, 0, None
        self.counter, self.half = 0, False

    def state(self):
        """What reads of ports change."""
        return self.address, self.fetched, self.held, self.counter, self.half

    def restore(self, state):
        self.address, self.fetched, self.held, self.counter, self.half = state

    def fetch(self):
        self.fetched = self.vdp[self.address]
        self.address = self.address + 1 & 0x3FFF

    def count(self):
        """The counter keeps its top three bits, and the low thirteen wrap."""
        self.counter = self.counter & 0xE000 | self.counter + 1 & 0x1FFF

    def read(self, port):
        """A byte read of a port; a write port gives 0."""
        found = 0
        if port == VDP_READ:
            found = self.fetched
            self.fetch()
            self.held = None
        elif port == VDP_STATUS:
            self.held = None
        elif port == GROM_READ:
            self.count()
            self.half = False
        elif port == GROM_READ_ADDRESS:
            found = self.counter >> 8
            self.counter = self.counter << 8 & 0xFF00 | self.counter & 0xFF
            self.half = False
        return found

    def write(self, port, byte):
        """A byte write to a port; a read port takes nothing."""
        if port == VDP_WRITE:
            self.vdp[self.address] = self.fetched = byte
            self.address = self.address + 1 & 0x3FFF
            self.held = None
        elif port == VDP_ADDRESS:
            self.write_vdp_address(byte)
        elif port == GROM_ADDRESS:
            if self.half:
                self.counter = self.counter & 0xFF00 | byte
                self.count()
            else:
                self.counter = byte << 8 | self.counter & 0xFF
            self.half = not self.half

    def write_vdp_address(self, byte):
        """The first byte is held; the second says what the pair is: a read address, a write address, a register."""
        if self.held is None:
            self.held = byte
            return
        held, self.held = self.held, None
        which = byte >> 6
        if which < 2:
            self.address = (byte & 0x3F) << 8 | held
            if which == 0:
                self.fetch()
        elif which == 2:
            self.registers[byte & 7] = held


class Memory:
    """Memory by addresses. A journal of what was overwritten lets a step be taken back."""

    def __init__(self):
        self.bytes = bytearray(0x10000)
        self.ports = Ports()
        self.journal = []
        self.before = None

    def load(self, address, word):
        """Loads a word, also into read-only memory."""
        self.bytes[address:address + 2] = word.to_bytes(2, 'big')

    def begin(self):
        """Begins a step."""
        self.journal.clear()
        self.before = None

    def take_back(self):
        """Takes the step's writes and its reads of ports back."""
        for address, pair in reversed(self.journal):
            self.put(address, pair)
        if self.before:
            self.ports.restore(self.before)

    def put(self, address, pair):
        """Puts the two bytes of a word where memory can be written; the scratchpad is seen at four places."""
        page = PAGES[address >> 8]
        if page == EXPANSION:
            self.bytes[address:address + 2] = pair
        elif page == SCRATCHPAD:
            found, low = self.bytes, address & 0xFF
            for mirror in MIRRORS:
                found[mirror + low:mirror + low + 2] = pair

    def read_word(self, address):
        """The word at an address, whose lowest bit does not count."""
        address &= 0xFFFE
        if address in PORTS:
            raise PortStop(address)
        return self.bytes[address] << 8 | self.bytes[address + 1]

    def write_word(self, address, word):
        address &= 0xFFFE
        if address in PORTS:
            raise PortStop(address)
        self.journal.append((address, self.bytes[address:address + 2]))
        self.put(address, (word >> 8, word & 0xFF))

    def read_byte(self, address):
        if address in PORTS:
            self.before = self.before or self.ports.state()
            return self.ports.read(address)
        return self.bytes[address]

    def write_byte(self, address, byte):
        """Writes a byte; it is the last access of its step, so nothing has to take it back."""
        if address in PORTS:
            self.ports.write(address, byte)
        elif address & 1:
            self.put(address - 1, (self.bytes[address - 1], byte))
        else:
            self.put(address, (byte, self.bytes[address + 1]))
