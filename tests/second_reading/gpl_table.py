"""The operations of GPL by the GPL Programmer's Guide, as names, forms and code bytes; the forms of operands and of
MOVE are the profile's."""

PLAIN = {'RTN': 0x00, 'RTNC': 0x01, 'H': 0x09, 'GT': 0x0A, 'EXIT': 0x0B, 'CARRY': 0x0C, 'OVF': 0x0D}
BYTE_VALUE = {'RAND': 0x02, 'BACK': 0x04, 'ALL': 0x07}
ADDRESS = {'B': 0x05, 'CALL': 0x06}
# a target in the same GROM, of thirteen bits
BRANCH = {'BR': 0x40, 'BS': 0x60}
# one operand: the byte form's code; that of the word form is one more
ONE = {'ABS': 0x80, 'NEG': 0x82, 'INV': 0x84, 'CLR': 0x86, 'FETCH': 0x88, 'CASE': 0x8A, 'PUSH': 0x8C, 'CZ': 0x8E,
       'INC': 0x90, 'DEC': 0x92, 'INCT': 0x94, 'DECT': 0x96}
NO_WORD_FORM = ('FETCH', 'PUSH')
# two operands: the code of the byte form with a source in memory; bit 02 is an immediate source, bit 01 the word form
TWO = {'ADD': 0xA0, 'SUB': 0xA4, 'MUL': 0xA8, 'DIV': 0xAC, 'AND': 0xB0, 'OR': 0xB4, 'XOR': 0xB8, 'ST': 0xBC, 'EX': 0xC0,
       'CH': 0xC4, 'CHE': 0xC8, 'CGT': 0xCC, 'CGE': 0xD0, 'CEQ': 0xD4, 'CLOG': 0xD8, 'SRA': 0xDC, 'SLL': 0xE0,
       'SRL': 0xE4, 'SRC': 0xE8}
NO_IMMEDIATE = ('EX', 'DEX')
# MOVE by what it copies from and to; the code with an immediate length is one more
MOVE = {'grom': 0x30, 'indexed': 0x32, 'memory': 0x34, 'register': 0x38}

WORD_BIT = 0x01
IMMEDIATE_BIT = 0x02


def operations():
    """Each operation of a source by name: its form, its code byte, and whether it is the word form."""
    found = {}
    for form, table in (('plain', PLAIN), ('value', BYTE_VALUE), ('address', ADDRESS), ('branch', BRANCH)):
        found.update({name: (form, code, False) for name, code in table.items()})
    for form, table in (('one', ONE), ('two', TWO)):
        for name, code in table.items():
            found[name] = (form, code, False)
            if name not in NO_WORD_FORM:
                found['D' + name] = (form, code | WORD_BIT, True)
    found['MOVE'] = ('move', 0, False)
    return found


def codes():
    """Each code byte that is kept: the name of its operation in a source, and its form."""
    found = {}
    for name, (form, code, _) in operations().items():
        for more in range({'branch': 0x20, 'move': 0}.get(form, 1)):
            found[code + more] = (name, form)
        if form == 'two' and name not in NO_IMMEDIATE:
            found[code | IMMEDIATE_BIT] = (name, 'immediate')
    for form, code in MOVE.items():
        found[code] = found[code + 1] = ('MOVE', form)
    return found
