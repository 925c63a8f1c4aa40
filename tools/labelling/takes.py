"""How many bytes a subroutine takes after its call, as a person says it: some bytes, and more that they speak of."""
import argparse
import re
import typing

FORM = re.compile(r'([0-9A-Fa-f]{4})=([0-9]{1,4})(?:\+@([0-9]{1,4})|\.\.([0-9A-Fa-f]{2}))?')


class Takes(typing.NamedTuple):
    """The number of bytes; which of them says how many more there are, from 1 on, or None; and the byte that is the
    last one of those that follow, or None."""
    least: int
    place: typing.Optional[int] = None
    last: typing.Optional[int] = None

    def number(self, data):
        """How many bytes are taken of those that stand after a call, or None if they end before."""
        number = self.least
        if self.place is not None and self.least <= len(data):
            number += data[self.place - 1]
        elif self.last is not None:
            number = data.find(self.last, self.least) + 1 or len(data) + 1
        return number if number <= len(data) else None


def takes(word):
    """The address of a subroutine and what it takes, from a word as `61AE=3`, `61AE=3+@2` or `61AE=3..00`."""
    found = FORM.fullmatch(word)
    if not found:
        raise argparse.ArgumentTypeError(f'{word}: not as 61AE=3, 61AE=3+@2 or 61AE=3..00')
    address, least, place, last = found.groups()
    if place and not 1 <= int(place) <= int(least):
        raise argparse.ArgumentTypeError(f'{word}: byte {place} is none of the {least} bytes')
    return int(address, 16), Takes(int(least), int(place) if place else None, int(last, 16) if last else None)
