"""The processor's step by the TMS 9900 data manual: instruction word, source, destination, writes, in this order, which
is the profile's where accesses to ports make it seen."""
import tms_memory
import tms_rows

SELF_JUMP = 0x10FF
# what executes a word, as far as words were met
DECODED = {}


class Processor:
    """The processor with its memory."""

    def __init__(self, memory, workspace, counter):
        self.memory = memory
        self.workspace, self.counter, self.status = workspace & 0xFFFE, counter & 0xFFFE, 0
        self.count = 0

    def run(self, limit):
        """Makes up to so many steps; the answer says how the run ended."""
        memory = self.memory
        for _ in range(limit):
            before = self.workspace, self.counter, self.status
            memory.begin()
            try:
                word = self.step()
            except tms_rows.WordRefused:
                self.workspace, self.counter, self.status = before
                return f'end refused >{self.counter:04X}'
            except tms_memory.PortStop as stop:
                memory.take_back()
                self.workspace, self.counter, self.status = before
                return f'end port >{stop.args[0]:04X}'
            self.count += 1
            if word == SELF_JUMP:
                return 'end self jump'
        return 'end limit'

    def step(self):
        """Executes one instruction; the answer is its word."""
        word = self.next_word()
        found = DECODED.get(word)
        if found is None:
            found = DECODED[word] = tms_rows.decoded(word)
        executed, name = found
        executed(self, word, name)
        return word

    def next_word(self):
        found = self.memory.read_word(self.counter)
        self.counter = self.counter + 2 & 0xFFFE
        return found

    def place(self, number):
        """The address of a register."""
        return self.workspace + 2 * number & 0xFFFF

    def register(self, number):
        return self.memory.read_word(self.workspace + 2 * number & 0xFFFF)

    def set_register(self, number, word):
        self.memory.write_word(self.workspace + 2 * number & 0xFFFF, word)

    def operand(self, field, growth):
        """The address of a general operand by its six bits; the register of mode 3 then grows."""
        mode, number = field >> 4, field & 15
        if mode == 0:
            return self.workspace + 2 * number & 0xFFFF
        if mode == 2:
            address = self.next_word()
            return address + self.register(number) & 0xFFFF if number else address
        address = self.register(number)
        if mode == 3:
            self.set_register(number, address + growth & 0xFFFF)
        return address

    def bits(self, mask, bits):
        """Sets the status bits of a mask; the others are kept."""
        self.status = self.status & ~mask | bits

    def enter(self, address, saved):
        """Takes a new workspace and counter from two words, and saves the old ones and the status in R13 to R15."""
        workspace = self.memory.read_word(address)
        counter = self.memory.read_word(address + 2 & 0xFFFF)
        self.workspace = workspace & 0xFFFE
        for number, word in zip((13, 14, 15, 11), saved):
            self.set_register(number, word)
        self.counter = counter & 0xFFFE
