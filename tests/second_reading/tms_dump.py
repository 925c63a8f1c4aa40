"""The dump of a machine, as the profile writes it: scratchpad, video memory and registers, the GROMs' counter, and the
processor's own registers."""
import functools


@functools.lru_cache(8)
def rows(data, address):
    """Rows of 16 bytes; each longest run of rows equal to the row before them is one line '*'."""
    found, before, folded = [], None, False
    for at in range(0, len(data), 16):
        row = data[at:at + 16]
        if row != before:
            found.append(f'>{address + at:04X} {row.hex(" ").upper()}')
            before, folded = row, False
        elif not folded:
            found.append('*')
            folded = True
    return found


def has_registers(workspace):
    """Whether a workspace lies wholly in the scratchpad at >8300 or in expansion memory."""
    return any(low <= workspace <= high - 32 for low, high in ((0x8300, 0x8400), (0x2000, 0x4000), (0xA000, 0x10000)))


def registers(cpu):
    if not has_registers(cpu.workspace):
        return ['R none']
    words = [f'>{cpu.register(number):04X}' for number in range(16)]
    return [' '.join(['R0', *words[:8]]), ' '.join(['R8', *words[8:]])]


def dump(cpu):
    """The lines of a dump."""
    ports = cpu.memory.ports
    return ['pad', *rows(bytes(cpu.memory.bytes[0x8300:0x8400]), 0x8300),
            'vdp', *rows(bytes(ports.vdp), 0),
            'regs ' + ' '.join(f'{byte:02X}' for byte in ports.registers),
            f'grom >{ports.counter:04X}',
            f'count {cpu.count} PC >{cpu.counter:04X} WP >{cpu.workspace:04X} ST >{cpu.status:04X}',
            *registers(cpu)]
