"""Results and status bits of the processor's operations, by the TMS 9900 data manual."""

LOGICAL, ARITHMETIC, EQUAL, CARRY, OVERFLOW, PARITY, EXTENDED = 0x8000, 0x4000, 0x2000, 0x1000, 0x0800, 0x0400, 0x0200
COMPARED = LOGICAL | ARITHMETIC | EQUAL
SUMMED = COMPARED | CARRY | OVERFLOW

ODD = [bin(byte).count('1') & 1 for byte in range(256)]


def compared(left, right, sign):
    """L>, A> and EQ of a first operand against a second; sign is the sign bit of their width."""
    found = LOGICAL if left > right else EQUAL if left == right else 0
    return found | ARITHMETIC if (left ^ sign) > (right ^ sign) else found


def added(left, right, sign):
    """The sum of two, and its bits: C if it leaves the width, OV if both have one sign and the sum the other."""
    whole = left + right
    result = whole & (2 * sign - 1)
    bits = compared(result, 0, sign)
    if whole != result:
        bits |= CARRY
    if ~(left ^ right) & (left ^ result) & sign:
        bits |= OVERFLOW
    return result, bits


def subtracted(left, right, sign):
    """What is left of the first, and its bits: C if there is no borrow, OV if the signs differ and the result's sign is
    not that of the first."""
    result = left - right & (2 * sign - 1)
    bits = compared(result, 0, sign)
    if left >= right:
        bits |= CARRY
    if (left ^ right) & (left ^ result) & sign:
        bits |= OVERFLOW
    return result, bits


def negated(word):
    """The negative; C only of 0, by the profile, and OV of the least number."""
    result = -word & 0xFFFF
    bits = compared(result, 0, 0x8000)
    return result, bits | (CARRY if word == 0 else OVERFLOW if word == 0x8000 else 0)


def absolute(word):
    """The absolute value, its bits by the word itself; OV of the least number, and C is cleared, by the profile."""
    bits = compared(word, 0, 0x8000) | (OVERFLOW if word == 0x8000 else 0)
    return (-word & 0xFFFF if word & 0x8000 else word), bits


def shifted(name, word, count):
    """A word after a shift by 1 to 16 places, bit by bit; C is the last bit that was shifted out, and OV, of SLA alone,
    says that the sign changed at any moment."""
    carry = overflow = 0
    for _ in range(count):
        if name == 'SLA':
            carry = word >> 15
            shifted_once = word << 1 & 0xFFFF
            overflow |= (word ^ shifted_once) >> 15
            word = shifted_once
        else:
            carry = word & 1
            top = {'SRA': word >> 15, 'SRL': 0, 'SRC': carry}[name]
            word = top << 15 | word >> 1
    return word, compared(word, 0, 0x8000) | (CARRY if carry else 0) | (OVERFLOW if overflow else 0)
