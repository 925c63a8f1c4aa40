"""Operations of GPL that the profile leaves out, in the place of lines. They stay bytes."""
from lib import other_operations

GROM = 0x2000


class Other:
    """An operation at an address of which it is certain how many bytes it has, and that a program goes on after them.

    `notes` says by their addresses what the pieces are that its bytes fall into, and `words` are the addresses of its
    words that are addresses of GROM.
    """
    is_code, text, leads, references = True, '', (), ()

    def __init__(self, at, data):
        self.operation, self.length = other_operations.OF_CODE[data[0]].name, other_operations.length(data)
        self.notes = {at + begin: name for name, begin, _ in other_operations.pieces(data)}
        if self.operation == 'XML':
            self.notes[at] = f'XML >{data[1]:02X}'
        self.words = [at + it for it in other_operations.addresses(data)]


def other(image, at):
    """The operation at an address, or None if there is none, or not all of it is certain."""
    row = other_operations.OF_CODE.get(image.memory[at])
    data = image.bytes(at, min(image.end(at), at - at % GROM + GROM))
    return Other(at, data) if row and row.is_certain and other_operations.length(data) else None


def name(image, at):
    """What the operation is called that begins at an address, or nothing."""
    row = other_operations.OF_CODE.get(image.memory[at])
    return row.name if row else ''
