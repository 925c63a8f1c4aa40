"""The steps of a GPL program at which an item that is watched holds: by the changes of all steps, taken one after the
other, so that no more than the hits are kept."""
import itertools
import typing

from lib import command
from stepping.reports import not_led_to
from stepping.run import state_shown
from stepping.stream import GplStream


class Hit(typing.NamedTuple):
    """A step at which an item holds: its number, the address of its instruction, the item, and the lowest place that
    changed with its new byte, if the item is no address of GROM."""
    step: int
    address: int
    item: int
    place: typing.Optional[int]
    byte: typing.Optional[int]


def changed_bytes(changes):
    """The bytes that changes make, by their places."""
    made = {}
    for at, digits, times in changes:
        data = bytes.fromhex(digits) * times
        made.update(zip(range(at, at + len(data)), data))
    return made


def hits_at(step, after, items):
    """The hits of a step, after which the next instruction is at an address."""
    made = changed_bytes(step.changes)
    for index, item in enumerate(items):
        if item.kind == 'pc':
            if after == item.at:
                yield Hit(step.number, step.address, index, None, None)
        else:
            place = next((at for at in range(item.first, item.first + item.size) if at in made), None)
            if place is not None:
                yield Hit(step.number, step.address, index, item.at + place - item.first, made[place])


def hits_of(steps, last, items):
    """The hits of steps in a row, each once the address after its step is known: after the last it is what `last`
    gives."""
    before = None
    for step in steps:
        if before:
            yield from hits_at(before, step.address, items)
        before = step
    if before:
        yield from hits_at(before, last(), items)


class LongRun:
    """A run of more steps than `watch` makes, and its hits: all, or the first alone."""

    def __init__(self, debugger, source, limit):
        self.debugger, self.source = debugger, source
        self.stream = GplStream(debugger.path, source, limit, debugger.clock.left)

    def hits(self, items, is_all):
        found = hits_of(self.stream, lambda: self.stream.last, items)
        if is_all:
            return list(found)
        hits = list(itertools.islice(found, 1))
        if hits and self.stream.last is None:
            self.check(self.stream.count)
        found.close()
        return hits

    @property
    def ending(self):
        """After how many steps the run ended, and by what and where, if it was not the limit; None if it goes on."""
        stream = self.stream
        return None if stream.last is None else (stream.count, stream.how, f'{stream.last:04X}')

    def check(self, count):
        """Stops the script if the steps that were taken do not lead to the state of a run of so many steps."""
        ended = self.debugger.run('grun', str(count), given=self.source)
        if ended.status not in (0, 7):
            raise command.Stopped(f'{self.debugger.path} grun {count}: ended with status {ended.status}')
        if state_shown(ended.out.decode('latin-1'))[1] != self.stream.memory:
            raise not_led_to()
