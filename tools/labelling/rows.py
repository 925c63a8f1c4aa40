"""The rows of a labelled source: a line each, in the forms in which it may be written."""
from .addresses import GROM
from .data import byte_row, rows, texts, word_row
from .image import MEMORY, RELOCATABLE

KEPT, LEAST = 8, 16        # bytes of a fill that are written as others are, and how many more it has to have
FILL = 16                  # bytes in a row of a fill


class Row:
    """A line at an address, with its bytes, if it has any, and its forms: by labels, as it is listed, as bytes.

    `note` is what its comment says after the address, `uses` are the names in its first form with their values, and a
    row of data is no instruction. A directive says where the next rows stand, and has no length.
    """
    __slots__ = 'address', 'length', 'label', 'forms', 'note', 'uses', 'is_data', 'is_head', 'is_whole', 'is_directive'

    def __init__(self, address, length, label, forms, note='', uses=(), is_data=True, is_head=False):
        self.address, self.length, self.label, self.forms = address, length, label, forms
        self.note, self.uses, self.is_data, self.is_head = note, uses, is_data, is_head
        self.is_whole = self.is_directive = False

    def lower(self, image, has_words):
        """Takes the next form, if there is one."""
        if len(self.forms) == 1 and not self.is_whole:
            part = image.bytes(self.address, self.address + self.length)
            plain = [word_row(part)] if has_words and self.length % 2 == self.address % 2 == 0 else []
            self.forms += [it for it in [*plain, byte_row(part)] if it != self.forms[0]]
            self.is_whole = True
        if len(self.forms) == 1:
            return False
        del self.forms[0]
        self.uses = ()
        return True


def directive(address, text):
    row = Row(address, 0, '', [text])
    row.is_whole = row.is_directive = True
    return row


def replaced(text, changes):
    """The text with other words at the places of references."""
    for reference, word in sorted(changes, key=lambda it: it[0].start, reverse=True):
        text = text[:reference.start] + word + text[reference.end:]
    return text


class Rows:
    """The rows of an image, in the order of their addresses."""

    def __init__(self, addresses, named, is_relocatable):
        self.addresses, self.labels = addresses, addresses.labels
        self.image, self.descent, self.headers = addresses.image, addresses.descent, addresses.headers
        self.cells, self.is_relocatable = named.cells, is_relocatable
        self.language, self.is_gpl = addresses.language, addresses.language.lister == 'gdis'
        self.notes = {at: text for it in self.descent.others.values() for at, text in it.notes.items()}
        self.rows, self.case, self.is_unsure = [], None, False
        self.texts, cuts = self._texts(), self._cuts()
        place = None
        for start, end in self.image.segments:
            place = self._segment(place, start, end, cuts)

    def _segment(self, place, start, end, cuts):
        """Adds the rows of a segment and of the gap after it, the last rows having led to a place; returns where they
        lead to."""
        first = RELOCATABLE if self.image.gaps.get(RELOCATABLE) == start else start
        if place != first:
            self._directives(first)
        at = self._gap(first, start, cuts)
        while at < end:
            if at != start and self.is_gpl and at % GROM == 0:
                self._directives(at)
            cut = cuts.find(1, at + 1, end)
            at = self._row(at, end if cut < 0 else cut)
        return self._gap(end, self.image.gaps.get(end, end), cuts)

    def _cuts(self):
        """A 1 at each address at which a row has to begin."""
        cuts = bytearray(MEMORY + 16)
        for at, line in self.descent.code.items():
            cuts[at] = cuts[at + line.length] = 1
        places = [*self.addresses.words, *(at + 2 for at in self.addresses.words), *self.labels.made]
        places += [it for name in self.headers.names for it in name]
        places += [it for at, count in self.descent.taken.items() for it in (at, at + count)]
        places += [*self.notes, *(at + it.length for at, it in self.descent.others.items())]
        places += range(0, MEMORY, GROM) if self.is_gpl else []
        for at in places:
            cuts[at] = 1
        return cuts

    def _texts(self):
        """A 1 at each address of a byte of a text: names of a header, and texts in what is no code and no address. Of
        the operations that are left out only FMT has texts."""
        data, marks = bytearray(self.image.memory), bytearray(MEMORY)
        owner = self.addresses.owner
        for at, it in self.descent.others.items():
            for place in it.notes if it.operation == 'FMT' else range(at, at + it.length):
                data[place] = 0
        data[:] = bytes([byte if owner[at] < 0 else 0 for at, byte in enumerate(data)])
        for start, end in texts(data) + self.headers.names:
            marks[start:end] = b'\1' * (end - start)
        return marks

    def _directives(self, at):
        texts = [f'GROM >{at & 0xE000:04X}', f'AORG >{at & 0x1FFF:04X}'] if self.is_gpl else [f'AORG >{at:04X}']
        if self.is_relocatable and at in self.image.moving:
            texts = [f'RORG >{at - RELOCATABLE:04X}']
        self.rows += [directive(at, text) for text in texts]

    def _gap(self, at, end, cuts):
        """Adds rows that leave bytes free, and a label at the end of the code; returns the address after them."""
        while at < end:
            cut = cuts.find(1, at + 1, end)
            cut = end if cut < 0 else cut
            self._free(at, cut)
            at = cut
        if end in self.labels.made and not self.image.holds(end):
            self._free(end, end)
        return end

    def _free(self, at, cut):
        row = Row(at, cut - at, self.labels.made.get(at, ''), [f'BSS {cut - at}'])
        row.is_whole = True
        self.rows.append(row)

    def _row(self, at, cut):
        """Adds the rows from an address on: an instruction, a word or the data up to the next cut; returns the address
        after them."""
        label = self.labels.made.get(at, '')
        if at in self.descent.code:
            return self._instruction(at, label, self.descent.code[at])
        self.case = None
        if at in self.addresses.words:
            value = self.image.word(at)
            name = self.labels.name(value) if value or at not in self.headers.words else None
            word = self.labels.written(value) if name else f'>{value:04X}'
            self._data(at, label, self.image.bytes(at, at + 2), f'DATA {word}', uses=[name] if name else [])
            return at + 2
        fill = self._fill(at, cut)
        if fill:
            self._bytes(at, fill, label)
            self.is_unsure = False
            (self._leave_out if self.image.memory[fill] == 0 else self._keep)(fill, cut)
        else:
            self._bytes(at, cut, label)
        return cut

    def _fill(self, at, cut):
        """Where zeros, or bytes >FF, begin that fill the rest of a GROM or of the image, but for a few; else None."""
        if not self.is_gpl or cut % GROM and cut != self.image.end(at):
            return None
        part = self.image.bytes(at, cut)
        count = max(len(part) - len(part.rstrip(byte)) for byte in (b'\0', b'\xFF'))
        return cut - count + KEPT if count >= KEPT + LEAST else None

    def _leave_out(self, start, end):
        """Zeros need not be written: `gasm` gives 0 if no line writes. The program can grow into them."""
        self.rows.append(directive(start, f'* >00 up to >{end - 1:04X}, which no line writes'))
        if end == self.image.end(start):
            self.rows.append(directive(start, f'AORG >{end - 1 & 0x1FFF:04X}'))
            self.rows.append(Row(end - 1, 1, '', ['BYTE >00']))

    def _keep(self, start, end):
        """Bytes >FF have to be written. Each line of them has its place, so it can be dropped if the program grows."""
        said = f'* >FF up to >{end - 1:04X}. If the program grows, drop lines from here on.'
        self.rows.append(directive(start, said))
        for at in range(start, end, FILL):
            part = self.image.bytes(at, min(at + FILL, end))
            self.rows.append(directive(at, f'AORG >{at & 0x1FFF:04X}'))
            self.rows.append(Row(at, len(part), '', [byte_row(part)]))

    def _bytes(self, at, cut, label):
        for part, text in rows(at, self.image.bytes(at, cut), not self.is_gpl, self.texts[at:cut]):
            self._data(at, label, part, text, self._doubtful_words(text))
            at, label = at + len(part), ''

    def _doubtful_words(self, text):
        """The words of a row that might be addresses."""
        if not text.startswith('DATA ') or self.addresses.wishes.moved is not None:
            return ''
        return ''.join(f' {word}?' for word in text[5:].split(',') if self.image.holds(int(word[1:], 16)))

    def _data(self, at, label, part, text, note='', uses=()):
        self.is_unsure &= not label and at not in self.notes
        note = f' after a call?{note}' if self.is_unsure else note
        note = f' after a call{note}' if at in self.descent.taken else note
        note = f' {self.notes[at]}{note}' if at in self.notes else note
        note = f' {self.headers.words[at]}' if at in self.headers.words else note
        self.rows.append(Row(at, len(part), label, [text], note, uses))

    def _instruction(self, at, label, line):
        """Adds the row of an instruction; returns the address after it."""
        changes, uses, note = [], [], self._case(line.operation)
        found = self.addresses.of.get(at)
        if found:
            for it in found.sure:
                uses.append(self.labels.name(it.address))
                changes.append((it, self.labels.written(it.address)))
            note += ''.join([f' >{it.address:04X}?' for it in found.doubtful])
        if self.cells:
            changes += self._cells(line.text, {it.start for it, _ in changes})
        forms = [replaced(line.text, changes), line.text] if changes else [line.text]
        self.is_unsure = at in self.descent.unsure
        note += ' takes bytes?' if self.is_unsure else ''
        is_near = line.operation in self.language.near and line.leads
        if is_near and abs(line.leads[0].address - at - 2) > self.language.reach:
            # No source has a jump around an end of memory.
            forms, uses = [word_row(self.image.bytes(at, at + line.length))], []
            note = f' {line.text}'
        is_head = self.labels.kinds.get(at) in ('entry', 'call')
        self.rows.append(Row(at, line.length, label, forms, note, uses, False, is_head))
        return at + line.length

    def _cells(self, text, taken):
        """The changes of a line for the names of cells, but at places that are taken."""
        found = [(it, self.cells.get((prefix.replace('*', '@'), it.address)))
                 for prefix, it in self.language.cells_of(text)]
        return [(it, name) for it, name in found if name and it.start not in taken]

    def _case(self, operation):
        """Counts the branches of a table that stands after CASE."""
        self.case = (self.case + 1 if self.case is not None and operation in ('BR', 'BS')
                     else -1 if operation in ('CASE', 'DCASE') else None)
        return '' if self.case in (None, -1) else f' case {self.case}'
