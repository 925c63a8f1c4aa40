"""The value of an expression whose names are known, by the rules of GPL sources."""
import re

TOKEN = re.compile(r">([0-9A-Fa-f]+)|([0-9]+)|([A-Za-z][0-9A-Za-z]*)|'((?:[^']|''){1,2})'")
REGISTERS = {f'R{number}': number for number in range(16)}


class Unvalued(Exception):
    """An expression without a value: the cause."""


def term(found, names):
    """The value of a term."""
    digits, decimal, name, characters = found.groups()
    if digits is not None:
        if len(digits) > 4:
            raise Unvalued('number too large')
        return int(digits, 16)
    if decimal is not None:
        if int(decimal) > 0xFFFF:
            raise Unvalued('number too large')
        return int(decimal)
    if name is not None:
        if name.upper() not in names:
            raise Unvalued(f'the value of {name.upper()} is not known here')
        return names[name.upper()]
    return int.from_bytes(characters.replace("''", "'").encode('latin-1'), 'big')


def signed(number):
    return number - 0x10000 if number & 0x8000 else number


def combined(left, sign, right):
    """Two values with the operator between them, in 16 bits."""
    if sign != '/':
        return {'+': left + right, '-': left - right, '*': left * right}[sign] & 0xFFFF
    if not right:
        raise Unvalued('division by zero')
    quotient = abs(signed(left)) // abs(signed(right))
    return (-quotient if (signed(left) < 0) != (signed(right) < 0) else quotient) & 0xFFFF


def value(text, names):
    """The value of an expression by the values of names; else it is Unvalued."""
    at, result, sign = 0, 0, '+'
    if text.startswith('-'):
        at, sign = 1, '-'
    while True:
        found = TOKEN.match(text, at)
        if not found:
            raise Unvalued('bad token')
        result, at = combined(result, sign, term(found, names)), found.end()
        if at == len(text):
            return result
        sign, at = text[at], at + 1
        if sign not in '+-*/':
            raise Unvalued('bad token')
