"""What a line of machine code does to the return address of the subroutine that it stands in.

The address is followed through registers, and through words of memory that a line names; what an inner call writes
holds it no more. A way that goes on at a place that is not followed is not certain. That code stores to its own
registers as to memory is not looked for.
"""
import re

BYTES = frozenset(['AB', 'CB', 'MOVB', 'SB', 'SOCB', 'SZCB'])
COMPARES = frozenset(['C', 'CB', 'CI', 'COC', 'CZC'])
LAST_WRITTEN = frozenset('A AB MOV MOVB S SB SOC SOCB SZC SZCB XOR'.split())
PRODUCTS = frozenset(['MPY', 'DIV'])
GROWN = {'INC': 1, 'INCT': 2, 'DEC': -1, 'DECT': -2}
PLACE = re.compile(r'R(\d+)|(@>[0-9A-F]{4})')      # a register or a word of memory that holds the address


def follow(walk, at, line, state):
    """The ways on from a line."""
    after, operation = at + line.length, line.operation
    if operation in ('RTWP', 'B', 'BL', 'BLWP') and not line.leads:
        return _left(walk, at, line, state)
    if operation in ('X', 'LWPI'):
        return walk.doubt(f'{operation} at >{at:04X} may do what is not known')
    if operation in ('BL', 'BLWP'):
        return _called(walk, at, line, state)
    move(state, line, walk.written)
    ways = [(it.address, dict(state)) for it in line.leads]
    return ways if operation in ('JMP', 'B') else [*ways, (after, state)]


def _left(walk, at, line, state):
    """A way that ends at a line, with the number of its return address if that is followed."""
    found = re.fullmatch(r'B \*R(\d+)', line.text)
    place = int(found[1]) if found else 14 if line.operation == 'RTWP' else None
    if place not in state or (line.operation == 'RTWP') != (walk.kind == 'vector'):
        return walk.doubt(f'it goes on at a place that is not known from {line.text} at >{at:04X}')
    walk.returns.add(state[place])
    return []


def _called(walk, at, line, state):
    """The way on after an inner call, which may write registers."""
    target = line.leads[0].address, line.leads[0].kind
    number = walk.nested(at, line)
    if number is None:
        return []
    written = {11} if line.operation == 'BL' else set()
    if line.operation == 'BL' and walk.taken.image.holds(target[0]):
        written |= walk.taken.written.get(target, set(range(16)))
    walk.written |= written
    return [(at + line.length + number, {it: count for it, count in state.items() if it not in written})]


def move(state, line, written):
    """Takes the effect of a line on the places of a state, and notes the registers that it writes."""
    operation = line.operation
    operands = line.text.partition(' ')[2].split(',')
    for operand in operands:
        found = re.fullmatch(r'\*R(\d+)\+', operand)
        if found and operation in ('LDCR', 'STCR'):
            state.pop(int(found[1]), None)
        elif found and int(found[1]) in state:
            state[int(found[1])] += 1 if operation in BYTES else 2
        if found:
            written.add(int(found[1]))
    places = [_place(operand) for operand in operands]
    first = len(operands) if operation in COMPARES else -1 if operation in LAST_WRITTEN else 0
    written.update(it for it in places[first:] if isinstance(it, int))
    _changed(state, operation, operands, places, first)


def _place(operand):
    found = PLACE.fullmatch(operand)
    return found and (int(found[1]) if found[1] else found[2])


def _changed(state, operation, operands, places, first):
    """Takes the effect of a line on the places that it changes, which are those of the operands from a first one on. A
    word of memory holds the address no more after a store by a register."""
    if operation in GROWN and places[0] in state:
        state[places[0]] += GROWN[operation]
    elif operation == 'AI' and places[0] in state:
        state[places[0]] += (int(operands[1][1:], 16) + 0x8000) % 0x10000 - 0x8000
    elif operation == 'MOV' and places[0] in state and places[1] is not None:
        state[places[1]] = state[places[0]]
    else:
        changed = {*places[first:], *(it + 1 for it in places[first:] if isinstance(it, int) and operation in PRODUCTS)}
        is_any = any('*' in it or '(' in it for it in operands[first:])
        for place in [it for it in state if it in changed or is_any and isinstance(it, str)]:
            del state[place]
