"""Names: from a file, and made of addresses."""
import re
import string

from lib import notes

from .calls import Rejected, RejectedLine, report

PREFIXES = {'entry': 'P', 'call': 'S', 'branch': 'L', 'vector': 'V', 'data': 'D'}
ORDER = {kind: number for number, kind in enumerate(PREFIXES)}
LETTERS = string.ascii_uppercase      # prefixes where a name is taken


class Named:
    """The names in files: lines with an address and a name, as `>6023 START`, `@>8302 COUNT` or `V@>0166 SCREEN`.

    An address after @ is one of the processor's memory, and one after V@ one of video memory; they are made equal to
    their names before the source begins. An address alone is one of the image, or of what is outside of it. What
    follows an asterisk is a comment.
    """

    def __init__(self, program, language):
        self.program, self.language = program, language
        self.places, self.cells, self.used, self.fixed = [], {}, set(), set()

    def read(self, name, text):
        """Takes the lines of a file. The assembler says which names it takes."""
        new = []
        for number, line in enumerate(text.split('\n'), 1):
            bare = line.partition('*')[0].strip()
            found = re.fullmatch(r'(V?@)?>([0-9A-Fa-f]{4})\s+(\S+)', bare)
            if bare and found is None:
                raise RejectedLine(name, number, 'not an address and a name', notes.mark_note(line))
            if bare:
                new.append((number, found[3]))
                why = self._added(found[1] or '', int(found[2], 16), found[3].upper())
                if why:
                    raise RejectedLine(name, number, f'{found[3]}: {why}')
        first = self._first_fault([it.upper() for _, it in new])
        if first:
            number, fault = first
            raise RejectedLine(name, new[number][0], f'{new[number][1]}: {fault}')

    def define(self, names, fixed):
        """Takes names of an object, and returns those that a source may have. The `fixed` ones are plain numbers."""
        self.fixed = fixed
        names = [(name, at) for name, at in names if name == name.upper() and re.fullmatch('[A-Z][A-Z0-9]*', name)]
        while found := self._first_fault([name for name, _ in names]):
            del names[found[0]]
        self.places += [(at, name) for name, at in names]
        self.used.update(name for name, _ in names)
        return [name for name, _ in names]

    def _first_fault(self, names):
        """The number of the first name that the assembler does not take, and why; or None."""
        lines = ''.join(f'{name} EQU 1\n' for name in names)
        try:
            report(self.program, self.language.assembler, given=lines.encode('latin-1', 'replace'))
        except Rejected as rejected:
            found = re.fullmatch(r'line (\d+): (.*)', str(rejected))
            if not found or int(found[1]) > len(names):
                raise
            return int(found[1]) - 1, found[2]
        return None

    def _added(self, prefix, address, name):
        """Why a name may not be added, or nothing."""
        if name in self.used:
            return 'stands twice'
        self.used.add(name)
        if prefix == 'V@' and self.language.lister == 'dis':
            return 'V@ is an address in GPL'
        if not prefix or self.language.lister == 'dis':
            self.places.append((address, name))
        elif self.cells.setdefault((prefix, address), name) != name:
            return f'{prefix}>{address:04X} has a name'
        return ''


class Labels:
    """The label of each address that is spoken of, and how an address is written by it."""

    def __init__(self, named, owner, image):
        """`owner` has for each byte inside of an instruction or a word the address of its first byte, else -1."""
        self.named, self.owner, self.image = named, owner, image
        self.anchor = image.moving[0] if image.moving else None
        self.kinds, self.made, self.more, self.exact, self.outside = {}, {}, {}, {}, []

    def place(self, address):
        """The address that has the label for an address."""
        owner = self.owner[address]
        return address if owner < 0 else owner

    def want(self, address, kind):
        """An address is spoken of: it gets a label, or the instruction or word that it lies in does.

        If it is outside of an object that can be moved, the beginning of the object's code gets it.
        """
        address = self._anchored(address)
        if address is None:
            return
        place = self.place(address)
        kind = kind if place == address else 'data'
        before = self.kinds.get(place)
        if before is None or ORDER[kind] < ORDER[before]:
            self.kinds[place] = kind

    def _anchored(self, address):
        return address if self.image.places[address] else self.anchor

    def settle(self):
        """Makes the names. A name from a file comes before one that is made."""
        for address, name in self.named.places:
            is_fixed = name in self.named.fixed
            if not is_fixed or not self.image.places[address]:
                self.exact.setdefault(address, name)
            if is_fixed or not self.image.places[address]:
                self.outside.append((name, address))
                continue
            place = self.place(address)
            self.kinds.setdefault(place, 'data')
            if place == address and place not in self.made:
                self.made[place] = name
            else:
                self.more.setdefault(place, []).append((name, address - place))
        used = set(self.named.used)
        for address in sorted(self.kinds.keys() - self.made.keys()):
            prefixes = [PREFIXES[self.kinds[address]], *LETTERS, *(f'{letter}X' for letter in LETTERS)]
            self.made[address] = next(it for prefix in prefixes if (it := f'{prefix}{address:04X}') not in used)
            used.add(self.made[address])

    def lines(self, place):
        """The further names of a place, as lines before it and after it."""
        more = self.more.get(place, ())
        before = [name for name, apart in more if not apart]
        return before, [f'{name:<6} EQU {self.made[place]}+{apart}' for name, apart in more if apart]

    def name(self, address):
        """The name that an address is written by, with its value; or None if it has none."""
        anchored = self._anchored(address)
        if address in self.exact and anchored in (address, None):
            return self.exact[address], address
        place = self.place(address if anchored is None else anchored)
        return (self.made[place], place) if place in self.made else None

    def written(self, address):
        """An address by its name, or None."""
        name = self.name(address)
        apart = name and address - name[1]
        return f'{name[0]}{apart:+}' if apart else name and name[0]
