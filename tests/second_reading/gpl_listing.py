"""The GPL disassembler's listing of bytes at an address, by the profile: a source that assembles to the same bytes."""
from gpl_decoding import decoded

GROM_SIZE = 0x2000
MEMORY_END = 0x10000


def origin_lines(address):
    return [f'GROM >{address & 0xE000:04X}', f'AORG >{address & 0x1FFF:04X}']


def listed_line(image, address, end):
    """The line at an address and the address after its bytes: an instruction where a whole one stands there in its
    shortest spelling and ends at or before the GROM's end and the end, else BYTE and the first byte."""
    found = decoded(image, address)
    after = address + found.length if found else 0
    if found and found.shortest and after <= min(end, (address & 0xE000) + GROM_SIZE):
        return found.text, after
    return f'BYTE >{image[address]:02X}', address + 1


def listing(data, low):
    """The lines of a listing, or None where the bytes run past the end of memory. GROM and AORG stand at its begin and
    at each later GROM that a listed byte follows."""
    end = low + len(data)
    if end > MEMORY_END:
        return None
    if not data:
        return origin_lines(0) + ['END']
    image = bytearray(MEMORY_END)
    image[low:end] = data
    lines = origin_lines(low)
    address = low
    while address < end:
        if address % GROM_SIZE == 0 and address != low:
            lines += origin_lines(address)
        text, address = listed_line(image, address, end)
        lines.append(text)
    return lines + ['END']


def listing_text(lines):
    return ''.join(f'       {line}\n' for line in lines).encode()
