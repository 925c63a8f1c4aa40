"""Results and status of GPL operations on one or two bytes: as the TMS9900 data manual gives them for the instruction
of that name, where the profile does not say otherwise. Each takes destination, source and the width in bytes."""

HIGH, GREATER, EQUAL, CARRIES, OVERFLOWS = 0x80, 0x40, 0x20, 0x10, 0x08
STATUS_BITS = {'H': HIGH, 'GT': GREATER, 'CARRY': CARRIES, 'OVF': OVERFLOWS}


def sign_of(width):
    return 0x80 << 8 * (width - 1)


def mask_of(width):
    return (1 << 8 * width) - 1


def signed(number, width):
    return number - 2 * sign_of(width) if number & sign_of(width) else number


def by(number, width):
    """H, GT and COND by a number against 0."""
    if number == 0:
        return EQUAL
    return HIGH if number & sign_of(width) else HIGH | GREATER


def added(left, right, width):
    """CARRY where the sum leaves the width, OVF where it leaves the signed range."""
    result = left + right & mask_of(width)
    status = by(result, width) | (CARRIES if left + right > mask_of(width) else 0)
    total = signed(left, width) + signed(right, width)
    return result, status | (0 if -sign_of(width) <= total < sign_of(width) else OVERFLOWS)


def subtracted(left, right, width):
    """CARRY where there is no borrow, OVF where the difference leaves the signed range."""
    result = left - right & mask_of(width)
    status = by(result, width) | (CARRIES if left >= right else 0)
    total = signed(left, width) - signed(right, width)
    return result, status | (0 if -sign_of(width) <= total < sign_of(width) else OVERFLOWS)


def negated(left, _, width):
    """CARRY for 0 alone, OVF for the least number."""
    result = -left & mask_of(width)
    return result, by(result, width) | (CARRIES if left == 0 else 0) | (OVERFLOWS if left == sign_of(width) else 0)


def absolute(left, _, width):
    """The status is by the operand as it was; OVF for the least number, and CARRY is cleared."""
    return (abs(signed(left, width)) & mask_of(width),
            by(left, width) | (OVERFLOWS if left == sign_of(width) else 0))


def rotated(left, right, width):
    """SRC rotates right by the low four bits of the source."""
    bits = 8 * width
    count = (right & 0x0F) % bits
    return (left >> count | left << bits - count) & mask_of(width)


# result, and the whole status or None where it is kept
RESULTS = {
    'ADD': added,
    'SUB': subtracted,
    'INC': lambda left, _, width: added(left, 1, width),
    'INCT': lambda left, _, width: added(left, 2, width),
    'DEC': lambda left, _, width: subtracted(left, 1, width),
    'DECT': lambda left, _, width: subtracted(left, 2, width),
    'NEG': negated,
    'ABS': absolute,
    'INV': lambda left, _, width: (left ^ mask_of(width), None),
    'CLR': lambda left, _, width: (0, None),
    'ST': lambda left, right, width: (right, None),
    'AND': lambda left, right, width: (left & right, None),
    'OR': lambda left, right, width: (left | right, None),
    'XOR': lambda left, right, width: (left ^ right, None),
    'SRA': lambda left, right, width: (signed(left, width) >> (right & 0x0F) & mask_of(width), None),
    'SLL': lambda left, right, width: (left << (right & 0x0F) & mask_of(width), None),
    'SRL': lambda left, right, width: (left >> (right & 0x0F), None),
    'SRC': lambda left, right, width: (rotated(left, right, width), None),
}
COMPARES = {
    'CH': lambda left, right, width: left > right,
    'CHE': lambda left, right, width: left >= right,
    'CGT': lambda left, right, width: signed(left, width) > signed(right, width),
    'CGE': lambda left, right, width: signed(left, width) >= signed(right, width),
    'CEQ': lambda left, right, width: left == right,
    'CLOG': lambda left, right, width: left & right == 0,
    'CZ': lambda left, _, width: left == 0,
}
