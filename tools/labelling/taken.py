"""How many bytes after a call its subroutine takes, so that it does not come back to the place right after the call.

All ways through a subroutine are followed up to its returns, each with what was taken on it. The number is certain if
each line on the ways says what it does to the return address, no two ways come to one line with different numbers, and
all returns have one number. Nested calls take their own bytes. What a run has shown of a call, or what a person says of
a subroutine, comes before that.

A wrong number would show data as code, and an edit would change them as if they were addresses; so what is not certain
ends the path. Three things are assumed, since all would be uncertain without them: code outside of the image, and what
XML calls, takes no bytes; the stacks begin where the console has them, or where a store of a number puts them; and
machine code does not reach its own registers through memory.
"""
import typing

from . import taken_gpl, taken_machine

FAR = 1000           # lines of a subroutine that are followed


class Unsure(typing.NamedTuple):
    """Why a number is not certain, and the subroutine of which something has to be said."""
    target: int
    cause: str


class Number(typing.NamedTuple):
    """How many bytes are taken: None if that is not known, and then why. A call may also never come back."""
    size: typing.Optional[int] = None
    unsure: typing.Optional[Unsure] = None
    is_back: bool = True


NEVER = Number(0, is_back=False)


class Taken:
    """The numbers of subroutines by their targets and how they are called: by 'call' or by 'vector'."""

    def __init__(self, language, image, listing, said, stacks):
        """`said` has what is known beside: `takes`, `returns` and `data`; `stacks` where those of GPL are."""
        self.image, self.listing, self.step = image, listing, len(language.filler)
        self.follow = taken_gpl.follow if language.lister == 'gdis' else taken_machine.follow
        self.said, self.stacks = said, stacks
        self.numbers, self.assumed, self.missing = {}, {}, set()
        self.written = {}         # the registers that a subroutine writes
        self.outside = {}         # targets outside of the image, each with the first place that calls it
        self.called = set()
        self.denied = {}          # calls that came back to other places than what is said leads to
        self.shown = self._shown()
        self.ends_of_data = dict(said.data)

    def _shown(self):
        """How many bytes calls took in a run, in sets by their targets."""
        shown: dict = {}
        for at, places in self.said.returns.items():
            line = self.listing.line(at)
            if line and line.operation == 'CALL' and line.leads:
                shown.setdefault(line.leads[0].address, set()).update(it - at - line.length for it in places)
        return shown

    def of_call(self, at, line, is_nested=False):
        """The number of a call at a place; None if lines have to be known first, and `missing` has their addresses; or,
        of a nested call, its target and kind if that is to be asked first."""
        target, kind = line.leads[0].address, line.leads[0].kind
        self.called.add(target)
        after = at + line.length
        places = self.said.returns.get(at)
        said = self._said(target, after)
        if places:
            number = self._came_back(target, after, places)
            if said and said != number:
                self.denied[at] = target
            return number
        if said:
            return said
        if not self.image.holds(target):
            self.outside.setdefault(target, at)
            return Number(0)
        number = self._nested(target, kind) if is_nested else self.number(target, kind)
        if isinstance(number, Number) and number.unsure and after in self.ends_of_data:
            return Number(self.ends_of_data[after] - after)
        return number

    def _said(self, target, after):
        """The number that a person says, or None."""
        if target not in self.said.takes:
            return None
        data = self.image.bytes(after, self.image.end(after)) if self.image.holds(after) else b''
        count = self.said.takes[target].number(data)
        return Number(count) if count is not None else Number(unsure=Unsure(
            target, f'what --takes {target:04X} says leads past the end of the image'))

    def _came_back(self, target, after, places):
        """The number of a call of which a run showed where it came back."""
        counts = {it - after for it in places}
        count = min(counts)
        if len(counts) > 1 or count < 0 or count and not self.image.holds(after, count):
            places = ' and to '.join(f'>{it:04X}' for it in sorted(places))
            return Number(unsure=Unsure(target, f'the call came back to {places}'))
        return Number(count)

    def _nested(self, target, kind):
        if (target, kind) in self.assumed:
            return self.assumed[target, kind]
        return self.numbers.get((target, kind), (target, kind))

    def number(self, target, kind):
        """The number of a subroutine, or None if lines have to be known first."""
        stack, made = [(target, kind)], []
        while (target, kind) not in self.numbers:
            walk = Walk(self, *stack[-1])
            number = walk.number()
            if walk.needed in stack:
                self.assumed[walk.needed] = Number(0)   # it calls itself, and the inner call is taken to have no bytes
            elif walk.needed:
                stack.append(walk.needed)
            elif number is None:
                return None
            else:
                made.append(stack.pop())
                self._settle(made, number)
                self.written[made[-1]] = walk.written
        return self.numbers[target, kind]

    def _settle(self, made, number):
        """Takes the number of the last subroutine of a list. If it was assumed to be another one, no number of the list
        is certain."""
        target = made[-1][0]
        counts = sorted(self.shown.get(target, ()))
        if len(counts) > 1 or counts and number.unsure is None and (counts != [number.size] or not number.is_back):
            texts = ' and after '.join(str(it) for it in counts)
            number = Number(unsure=Unsure(target, f'calls of it came back after {texts} bytes'))
        self.numbers[made[-1]] = number
        if self.assumed.pop(made[-1], number) != number:
            unsure = number.unsure or Unsure(target, f'>{target:04X} calls itself')
            self.numbers.update(dict.fromkeys(made, Number(unsure=unsure)))


class Walk:
    """The ways through one subroutine. The state of a way has the number that was taken on it, for each place that
    holds the return address; in GPL there is one. `returns` has the numbers at returns, and `left` the ones at which a
    way leaves the image."""

    def __init__(self, taken, target, kind):
        self.taken, self.target, self.kind = taken, target, kind
        self.states, self.returns, self.left, self.written = {}, set(), set(), set()
        self.needed = self.unsure = None

    def number(self):
        """What the subroutine takes, or None."""
        first, image = self.target, self.taken.image
        if self.kind == 'vector':
            first = image.word(first + 2) if image.holds(first, 4) else None
        open_ = [(first, {{'call': 11, 'vector': 14}[self.kind]: 0})]
        is_missing = False
        while open_ and self.needed is None and self.unsure is None:
            at, state = open_.pop()
            if at is None or at % self.taken.step or not image.holds(at):
                self._leave(at, state)
                continue
            line = self.taken.listing.line(at)
            if line is None:
                self.taken.missing.add(at)
                is_missing = True
            elif not line.is_code:
                name = self.taken.listing.other_name(at)
                self.doubt(f'it comes to {name} at >{at:04X}, which is left out' if name else
                           f'it comes to >{at:04X}, which is no instruction')
            elif len(self.states) == FAR and at not in self.states:
                self.doubt('it has more lines than are followed')
            elif self._is_new(at, state):
                open_ += self.taken.follow(self, at, line, dict(state))
        return None if self.needed or is_missing and self.unsure is None else self._settled()

    def _leave(self, at, state):
        """A way leaves the image, or what is known."""
        self.left.update(state.values())
        if at is not None and at not in self.taken.said.takes:
            self.taken.outside.setdefault(at, self.target)

    def doubt(self, cause, target=None):
        """Gives the number up; returns no way on."""
        self.unsure = self.unsure or Unsure(self.target if target is None else target, cause)
        return []

    def _is_new(self, at, state):
        """Whether a line is met in a new state. A register that holds the address on some ways only counts no more."""
        before = self.states.get(at)
        if before is None:
            self.states[at] = state
            return True
        both = before.keys() & state.keys()
        if any(before[it] != state[it] for it in both):
            self.doubt(f'it comes to >{at:04X} after more bytes and after fewer')
        if len(both) < len(before):
            state.clear()
            state.update({it: before[it] for it in both})
            self.states[at] = state
            return True
        return False

    def _settled(self):
        found = self.returns or self.left
        if self.unsure is None and len(found) > 1:
            self.doubt('it comes back after more bytes and after fewer')
        number = next(iter(found), 0)
        if self.unsure is None and (number < 0 or number % self.taken.step or not self.returns and number):
            self.doubt('it moves its return address')
        if self.unsure:
            return Number(unsure=self.unsure)
        return Number(number) if found else NEVER

    def nested(self, at, line):
        """What an inner call takes; None if that is not known, and then `needed` may say which one is to be asked."""
        number = self.taken.of_call(at, line, is_nested=True)
        if number is None or not isinstance(number, Number):
            self.needed = number
            return None
        if number.unsure:
            self.doubt(number.unsure.cause, number.unsure.target)
        return number.size if number.unsure is None and number.is_back else None
