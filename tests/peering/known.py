"""What MAME does otherwise, and the reason. A difference that has none here is a bad one."""
import re

# words of operations with a register and of those without operands: their low bits are part of the code, or have to be
# zeros
FIXED = range(0x0200, 0x0400)
UNUSED = 'bits of a word that the formats of the manual have as zeros are ignored by MAME; here such a word is no instruction'
SHIFT = 'a count of 0, which stands for register 0, is shown as R0 by MAME'
COUNT = 'a count of 0 bits, which stands for 16, is shown as 16 by MAME'
JUMP = 'if L> and EQ are both set, JH jumps in MAME and JLE does not; here and in the manual EQ decides'
GREATER, EQUAL = 0x8000, 0x2000
DISPLACEMENT = 'the displacement of a bit is shown as a word by MAME, and as a signed number here'
REGISTER_PAIR = 'a pair that gives a video register a byte changes the video address in MAME; here the address stays'
HALF_VIDEO = 'the first byte of a video address is in the address at once in MAME; here it is lost if no second comes'
HALF_GROM = 'the first byte of a GROM address moves the low half up in MAME and takes its place; here it is the high half'
MOVED = 'a GROM keeps the three bits of its place in MAME when an address read moves the low half up; here they move too'
WITHOUT_USE = 'bits of a video register that have no use are 0 in MAME; here a register has the byte that it was given'
# the bits of the video registers that have a use
USED = (0x03, 0xFB, 0x0F, 0xFF, 0x07, 0x7F, 0x07, 0xFF)


def of_listing(word, our, their):
    """The reason of a difference between the listings of a word, or None."""
    if word in FIXED and our == f'DATA >{word:04X}':
        return UNUSED
    if re.fullmatch(r'S(?:RA|RL|LA|RC) R\d+,0', our) and their == our[:-1] + 'R0':
        return SHIFT
    if re.fullmatch(r'(?:LDCR|STCR) \S+,0', our) and their == our[:-1] + '16':
        return COUNT
    bit = re.fullmatch(r'(SBO|SBZ|TB) (-?\d+)', our)
    if bit and their == f'{bit[1]} >{int(bit[2]) & 0xFFFF:04X}':
        return DISPLACEMENT
    return None


def of_step(last, our, their):
    """The reason of a difference after the line of an instruction, by its status and operation, or None."""
    both = GREATER | EQUAL
    if last[3] in ('JH', 'JLE') and int(last[2], 16) & both == both and our[1:3] == their[1:3]:
        return JUMP
    return None


def of_register(number, our, their):
    """The reason of a difference between the bytes of a video register, or None."""
    return WITHOUT_USE if our & USED[number] == their else None
