"""Which bytes of an image are instructions: those that a program comes to from its entries."""
import array

from lib.command import UNREADABLE, Stopped

from . import other
from .image import MEMORY
from .taken import Number, Taken
from .taken_gpl import Stacks


class Descent:
    """The instructions that are reached: `code` has their lines by address, `others` the operations that are left out,
    `owner` for each byte the address of the instruction that it belongs to, or -1. `taken` says how many bytes after a
    call its subroutine takes, by their address, and `unsure` why that is not certain, by the address of the call.
    `odd` has the addresses at which a path ends in bytes, and what they are."""

    def __init__(self, listing, image, language, closed, said, stacks=Stacks()):
        """`closed` has the addresses that are data. `said` has what is known beside: `moved`, the words of an object
        that move, which begin nothing; and what calls take. `stacks` are those of another descent."""
        self.listing, self.image, self.language = listing, image, language
        self.closed, self.moved = closed, said.moved or ()
        self.code, self.others, self.taken, self.unsure, self.odd = {}, {}, {}, {}, {}
        self.walked = set()
        self.owner = array.array('l', [-1]) * (MEMORY + 16)
        self.step = len(language.filler)
        listing.learn({at for at in said.returns if at not in listing.known and self._is_place(at)})
        self.subroutines = Taken(language, image, listing, said, stacks)

    def executed(self, addresses):
        """Takes instructions that a run came to; returns those that are not listed as instructions."""
        places = [at for at in addresses if self._is_place(at)]
        self._learn(places)
        for at in places:
            if self._is_free(at, self.listing.known[at]):
                self._claim(at, self.listing.known[at])
        return [at for at in places if self.owner[at] < 0]

    def stacks(self):
        """Where the stacks of a GPL program are, by all its instructions."""
        found = self.subroutines.stacks
        for line in self.code.values():
            found = found.after(line) if self.language.lister == 'gdis' else found
        return found

    def sweep(self, low, high):
        """Takes the instructions that stand one after the other in a range, and what they lead to."""
        at, targets = low + low % self.step, []
        for start, end in self.image.segments:
            if max(at, start) < min(high, end):
                self.listing.learn_range(max(at, start), min(high, end))
        while at < high:
            if self.owner[at] < 0 and self._is_place(at):
                targets += self._path(at)
            line = self.code.get(at) or self.others.get(at)
            at += line.length if line else self.step
        self.follow(targets)

    def _path(self, at):
        """Takes the instructions from an address on up to one that the program does not pass; returns their targets."""
        targets, open_ = [], {at}
        while open_:
            self._learn(open_)
            missing = set()
            for it in sorted(open_):
                targets += self._walk(it, missing)
            open_ = missing
        return targets

    def follow(self, entries):
        """Takes what is reached from these addresses."""
        open_, missing = list(reversed(entries)), set()
        while open_ or missing:
            if not open_:
                self._learn(missing)
                open_, missing = sorted(missing, reverse=True), set()
            at = open_.pop()
            open_ += reversed(self._walk(at, missing))

    def _learn(self, addresses):
        addresses = {*addresses, *self.subroutines.missing}
        self.subroutines.missing.clear()
        new = {at for at in addresses if at not in self.listing.known and self._is_place(at)}
        if new:
            self.listing.learn(new)
        if not new <= self.listing.known.keys():
            raise Stopped('a listing has no line at an address where one begins', UNREADABLE)

    def _walk(self, at, missing):
        """Takes instructions from an address on up to one that the program does not pass; returns their targets."""
        targets = []
        while self._is_place(at) and at not in self.walked:
            line = self.listing.line(at)
            if line is None:
                missing.add(at)
                break
            if at not in self.code and at not in self.others and not self._is_free(at, line):
                self._note_end(at, line)
                break
            self._claim(at, line)
            number = self._number(at, line)
            if number is None:
                missing.add(at)
                break
            self.walked.add(at)
            targets += [self._entered(it) for it in line.leads]
            if number.unsure:
                self.unsure[at] = number.unsure
            if line.operation in self.language.ends or number.unsure or not number.is_back:
                break
            at += line.length
            self._take(at, number.size)
            at += number.size
        return [it for it in targets if it is not None and self._is_place(it) and it not in self.walked]

    def _number(self, at, line):
        """How many bytes are taken after a line."""
        if not line.leads or line.leads[0].kind == 'branch':
            return Number(0)
        return self.subroutines.of_call(at, line)

    def _take(self, at, count):
        """Keeps the bytes after a call as data."""
        if count and self.image.holds(at, count):
            self.taken[at] = count
            if max(self.owner[at:at + count]) >= 0:
                self.odd[at] = 'code, and taken after a call'
            self.closed.update(range(at, at + count))

    def _note_end(self, at, line):
        """Notes that a path ends where no instruction can be taken."""
        name = self.listing.other_name(at)
        if any(at in range(low, low + count) for low, count in self.taken.items()):
            self.odd[at] = 'code leads here, but it is taken after a call'
        elif not line.is_code and self.owner[at] < 0 and at not in self.closed and at not in self.moved:
            self.odd[at] = 'code leads here, but ' + (
                f'{name} is left out, and it is not certain what follows; --entry ADDR says where it goes on'
                if name else 'it is no instruction; --data FROM-TO says so, or --takes what the call before it takes')

    def _is_place(self, at):
        """Whether an instruction may begin at an address of the image: in machine code, at an even one."""
        return at % self.step == 0 and self.image.holds(at)

    def _entered(self, reference):
        """Where a branch leads to, or None. A vector is two words: a workspace and the entry."""
        if reference.kind != 'vector':
            return reference.address
        return self.image.word(reference.address + 2) if self.image.holds(reference.address, 4) else None

    def _is_free(self, at, line):
        """Whether an instruction stands here, and none of its bytes is data or another's."""
        end = at + line.length
        is_open = line.is_code and at not in self.moved and self.closed.isdisjoint(range(at, end))
        return is_open and max(self.owner[at:end]) < 0

    def _claim(self, at, line):
        if isinstance(line, other.Other):
            self.others[at] = line
            self.closed.update(range(at, at + line.length))
        elif at not in self.code:
            self.code[at] = line
            self.owner[at:at + line.length] = array.array('l', [at]) * line.length
