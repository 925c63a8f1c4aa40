"""Cells in a block: each name gets the next address, and the end of the block is checked."""
from expanding.expression import Unvalued


class Block:
    """The addresses that a CELLS line gives: the next one, and the last."""

    def __init__(self, first, last):
        if last < first:
            raise Unvalued(f'the block ends at >{last:04X}, before it begins')
        self.next, self.last = first, last

    def taken(self, width):
        """The address of the next cells, as many as a width."""
        first = self.next
        if not width:
            raise Unvalued('a cell has at least 1 byte')
        if first + width - 1 > self.last:
            raise Unvalued(f'this ends at >{first + width - 1:04X}, and the block at >{self.last:04X}')
        self.next += width
        return first
