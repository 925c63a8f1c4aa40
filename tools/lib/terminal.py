"""Text as a terminal may get it: a text of others has no control codes that reach it."""
import re

# the control codes but for the tab, also those from >80 on: as characters, and as bytes that are no part of UTF-8
CONTROL = re.compile(r'[\x00-\x08\x0a-\x1f\x7f-\x9f\udc80-\udc9f]')


def escaped(text):
    """A text whose control codes are written as the escapes of their bytes, an end of a line as \\x0a too. A byte that
    is no part of UTF-8 is a surrogate, as in the name of a file."""
    return CONTROL.sub(lambda it: ''.join(f'\\x{byte:02x}' for byte in it[0].encode('utf-8', 'surrogateescape')), text)


def line_of(data):
    """The bytes of a line of a source as such a text, whether it is UTF-8 or of a byte for each character."""
    return escaped(data.decode('utf-8', 'surrogateescape'))
