"""The states that conditions are asked of, and the words that mean the same in each run."""
import re
import typing

from stepping.places import REGISTERS, STATUS, VIDEO

VIDEO_SIZE, MEMORY_SIZE = REGISTERS - VIDEO, VIDEO

# the bits of the status; GPL Programmer's Guide, "Status byte", and TMS9900 data manual, "Status register"
GPL_BITS = {'H': 0x80, 'GT': 0x40, 'COND': 0x20, 'CARRY': 0x10, 'OVF': 0x08}
PROCESSOR_BITS = {'LGT': 0x8000, 'AGT': 0x4000, 'EQ': 0x2000, 'C': 0x1000, 'OV': 0x0800, 'OP': 0x0400, 'X': 0x0200}


class State(typing.NamedTuple):
    """The state after so many steps: the memory, the next address; of the processor its workspace pointer and status;
    how many routines are open; and the state before the last of these steps, itself if there is none."""
    number: int
    memory: typing.Any
    pc: int
    wp: int
    st: int
    depth: int
    before: typing.Any = None

    @property
    def old(self):
        return self.before or self


class Names(typing.NamedTuple):
    """What names mean: whether the run is one of the processor; of each name of memory its place and its bytes; the
    values of all names; and the places of words."""
    is_processor: bool
    places: dict
    values: dict
    words: frozenset


def moved(place, offset):
    """The place after a number of bytes, in its own part of the memory."""
    if place >= REGISTERS:
        return place + offset
    if place >= VIDEO:
        return VIDEO + (place - VIDEO + offset) % VIDEO_SIZE
    return (place + offset) % MEMORY_SIZE


def number_at(memory, place, size):
    """The number that some bytes are, the highest first."""
    value = 0
    for offset in range(size):
        value = value << 8 | memory[moved(place, offset)]
    return value


def bit_of(bit, status_of):
    return lambda state: int(status_of(state) & bit > 0)


def gpl_status(state):
    return state.memory[STATUS]


def processor_status(state):
    return state.st


def built_in(word, is_processor):
    """What a word means that is no name of a source, as a function from a state to a number; None if it is nothing."""
    if re.fullmatch('VR[0-7]', word):
        place = REGISTERS + int(word[2])
        return lambda state: state.memory[place]
    found = {'STEP': lambda state: state.number, 'DEPTH': lambda state: state.depth, 'PC': lambda state: state.pc,
             'ST': processor_status if is_processor else gpl_status}
    if is_processor:
        found['WP'] = lambda state: state.wp
    bits = PROCESSOR_BITS if is_processor else GPL_BITS
    found.update((name, bit_of(bit, found['ST'])) for name, bit in bits.items())
    return found.get(word)
