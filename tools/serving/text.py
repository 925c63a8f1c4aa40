"""Texts as editors send them: lines, places in UTF-16 units, changes, and the bytes that the program gets."""
import os
import urllib.parse

from lib.command import MOST_BYTES


def path_of(uri):
    """The path of a URI, or None if it names no file."""
    found = urllib.parse.urlsplit(uri)
    return os.path.normpath(urllib.parse.unquote(found.path)) if found.scheme == 'file' else None


def uri_of(path):
    return 'file://' + urllib.parse.quote(os.path.abspath(path))


def units(line, column):
    """The UTF-16 units before a column of a line."""
    return column if line.isascii() else len(line[:column].encode('utf-16-le', 'surrogatepass')) // 2


def column(line, count):
    """The column that has so many UTF-16 units before it; one in the middle of a character is the one before it."""
    if line.isascii():
        return max(0, min(count, len(line)))
    return len(line.encode('utf-16-le', 'surrogatepass')[:2 * max(0, count)].decode('utf-16-le', 'ignore'))


class Document:
    """A text at one moment, which is never changed; a change makes another one. `named` are the names of the files that
    it takes in, once they are known; they stay the same if no line that may name one is changed."""

    def __init__(self, uri, language, version, lines, encoding='utf-8', data=None):
        self.uri, self.language, self.version, self.encoding = uri, language, version, encoding
        self.path, self._lines, self._data = path_of(uri), lines, data
        self.named = None
        self.index = {}

    @classmethod
    def opened(cls, uri, language, version, text):
        """A text as it is opened. Its bytes are UTF-8, but Latin-1 if so the file has them."""
        document = cls(uri, language, version, text.split('\n'))
        if not text.isascii() and document.path:
            try:
                with open(document.path, 'rb') as file:
                    data = file.read(MOST_BYTES + 1)
                if data != document.data and data == text.encode('latin-1'):
                    document.encoding, document._data = 'latin-1', data
            except (OSError, UnicodeEncodeError):
                pass
        return document

    @classmethod
    def of_file(cls, path, data):
        """A text that is not open, by its bytes."""
        try:
            data.decode('utf-8')
            encoding = 'utf-8'
        except UnicodeDecodeError:
            encoding = 'latin-1'
        return cls(uri_of(path), None, None, None, encoding, data)

    @property
    def name(self):
        return os.path.basename(self.path) if self.path else 'source'

    @property
    def lines(self):
        if self._lines is None:
            self._lines = self._data.decode(self.encoding).split('\n')
        return self._lines

    @property
    def data(self):
        """The bytes of the text, as the editor would write them."""
        if self._data is None:
            self._data = '\n'.join(self.lines).encode(self.encoding, 'replace')
        return self._data

    def line(self, number):
        """A line, counted from 0, without its end."""
        return self.lines[number].rstrip('\r') if 0 <= number < len(self.lines) else ''

    def column(self, position):
        return column(self.line(position['line']), position['character'])

    def with_lines(self, lines):
        """The same text with other lines."""
        return Document(self.uri, self.language, self.version, lines, self.encoding)

    def changed(self, version, changes):
        """The text after changes, one after the other."""
        lines, touched = self.lines, []
        for change in changes:
            new = change['text'].split('\n')
            if 'range' not in change:
                lines, touched = new, ['COPY']
                continue
            start, end = change['range']['start'], change['range']['end']
            first, last = start['line'], min(end['line'], len(lines) - 1)
            head = lines[first][:column(lines[first], start['character'])] if first < len(lines) else ''
            tail = lines[last][column(lines[last], end['character']):] if end['line'] < len(lines) else ''
            touched += lines[first:last + 1]
            new[0] = head + new[0]
            new[-1] += tail
            touched += new
            lines = [*lines[:first], *new, *lines[last + 1:]]
        made = Document(self.uri, self.language, version, lines, self.encoding)
        if not any(word in line.upper() for line in touched for word in ('COPY', 'BIN')):
            made.named = self.named
        return made


def place(line, number, start, end):
    """A range of a line, by its columns."""
    return {'start': {'line': number, 'character': units(line, start)},
            'end': {'line': number, 'character': units(line, end)}}


def location(document, number, start, end):
    return {'uri': document.uri, 'range': place(document.line(number), number, start, end)}


def edits(old, new):
    """The changes of lines that become others, each the smallest of its line. A line's end is left as it is."""
    for number, (before, after) in enumerate(zip(old, new)):
        before, after = before.rstrip('\r'), after.rstrip('\r')
        if before == after:
            continue
        start = len(os.path.commonprefix([before, after]))
        same = len(os.path.commonprefix([before[start:][::-1], after[start:][::-1]]))
        yield {'range': place(before, number, start, len(before) - same), 'newText': after[start:len(after) - same]}
