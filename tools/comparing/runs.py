"""Two runs, step by step beside each other, up to where they part.

Steps on lines that only one of the sources has are taken alone. All others are compared: where they are, what the
instructions are, and what was changed up to there.
"""
import dataclasses
import typing

from comparing.places import STATUS
from stepping.places import END, make
from stepping.run import first_state

POINTERS = (0x8372, 0x8373)


class Side:
    """A run that is gone through: the step that is next, if there is one, the memory before it, and how many steps were
    made, and made alone. The cells that hold return addresses are kept apart: an address in one is that of a line."""

    def __init__(self, stream):
        self.stream, self.steps = stream, iter(stream)
        self.memory, self.returns, self.changed = bytearray(END), set(), set()
        make(self.memory, first_state())
        self.count = self.alone = 0
        self.step = next(self.steps, None)

    @property
    def at(self):
        """Where the next step is made, or where the program has ended; None if the run was cut off."""
        if self.step:
            return At(self.step.number, self.step.address)
        return At(None, self.stream.last) if self.stream.is_over else None

    def take(self):
        """Makes the next step; where it is made."""
        made = self.step
        for at, digits, times in made.changes:
            data = bytes.fromhex(digits) * times
            self.memory[at:at + len(data)] = data
            self.note(made, range(at, at + len(data)))
        self.count += 1
        self.step = next(self.steps, None)
        return At(made.number, made.address)

    def note(self, step, places):
        """Notes the places that a step has changed."""
        self.changed.update(places)
        if step.text.startswith('CALL '):
            self.returns.update(set(places).difference(POINTERS))
        elif self.returns and not step.text.startswith('FETCH '):
            self.returns.difference_update(places)

    def finish(self):
        """Makes all steps that are left."""
        while self.step:
            self.take()


class At(typing.NamedTuple):
    """Where a step is made, by its number and the address of its instruction; without a number the program has ended
    there."""
    number: typing.Optional[int]
    address: int


class Both(typing.NamedTuple):
    """A step of the old run and one of the new run; of what one run does alone the other has none."""
    old: typing.Optional[At]
    new: typing.Optional[At]


class Effect(typing.NamedTuple):
    """The first bytes that differ after two steps: each by its place in the old and in the new run, and its values."""
    steps: Both
    bytes: list


@dataclasses.dataclass
class Difference:
    """What two runs have not in common: the first instruction that is another one, the first other effect, and where
    they go to other lines: the steps before that, and those after it."""
    other: typing.Optional[Both] = None
    effect: typing.Optional[Effect] = None
    before: typing.Optional[Both] = None
    parted: typing.Optional[Both] = None


def differing(places, old, new, looked_at):
    """The bytes that differ in two runs, of some places of the old one."""
    for at in sorted(looked_at):
        there = places.there(at)
        if there is None or at == STATUS or at in old.returns or there in new.returns:
            continue
        if not places.are_same(old.memory, at, new.memory, there):
            yield at, there, old.memory[at], new.memory[there]


def note_effect(found, places, old, new, steps):
    """Notes the bytes that steps have changed otherwise, if they are the first."""
    looked_at = old.changed | {at for at in map(places.back, new.changed) if at is not None}
    old.changed.clear()
    new.changed.clear()
    if not found.effect:
        first = list(differing(places, old, new, looked_at))
        found.effect = Effect(steps, first) if first else None


def skip(side, is_alone):
    """Makes the steps on lines that the other source does not have; the last of them, if there is one."""
    made = None
    while side.step and is_alone(side.step.address):
        made = side.take()
        side.alone += 1
    return made


def compared(places, old, new):
    """Goes through both runs up to where they part, or where one is cut off; what they do not have in common."""
    found, pairs = Difference(), places.pairs
    while True:
        skipped = Both(skip(old, pairs.is_old_alone), skip(new, pairs.is_new_alone))
        note_effect(found, places, old, new, skipped)
        steps = Both(old.at, new.at)
        if None in steps:
            return found
        is_end = [at.number is None for at in steps]
        if is_end[0] != is_end[1] or not pairs.are_same(steps.old.address, steps.new.address):
            found.parted = steps
            return found
        if all(is_end):
            found.parted = steps if old.stream.how != new.stream.how else None
            return found
        if not found.other and not places.are_texts(old.step.text, new.step.text):
            found.other = steps
        found.before = Both(old.take(), new.take())
        note_effect(found, places, old, new, found.before)
