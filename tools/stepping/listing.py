"""The lines and the names of a source, as `glist` of ti_debug lists them."""
import re
import typing

from lib import command

HEAD = re.compile(rb'([ 0-9]{6}[0-9]) >([0-9A-F]{4}) (.{23}) (.*)', re.S)
# the column of the bytes, if there are none
NONE = b' ' * 23
MORE = re.compile(rb' {8}>[0-9A-F]{4} ((?:[0-9A-F]{2} ?)+)')
NAME = re.compile(rb'name >([0-9A-F]{4}) ([ 0-9]{6}[0-9]) (.*)', re.S)


class Line(typing.NamedTuple):
    """A line of a source: its number, its address, the bytes that it places, and its text."""
    number: int
    address: int
    data: bytes
    text: bytes


class Name(typing.NamedTuple):
    """A name of a source, its value, and the number of the line that defines it."""
    name: str
    value: int
    line: int


class Listing(typing.NamedTuple):
    """The lines of a source up to its end, and its names."""
    lines: list
    names: list


def listing_of(report):
    """The listing that a report of `glist` shows."""
    lines, names = [], []
    for row in report.split(b'\n')[:-1]:
        if head := HEAD.fullmatch(row):
            number, address, shown, text = head.groups()
            data = b'' if shown == NONE else bytes.fromhex(shown.decode())
            lines.append(Line(int(number), int(address, 16), data, text))
        elif more := MORE.fullmatch(row):
            lines[-1] = lines[-1]._replace(data=lines[-1].data + bytes.fromhex(more[1].decode()))
        elif name := NAME.fullmatch(row):
            names.append(Name(name[3].decode('latin-1'), int(name[1], 16), int(name[2])))
        else:
            raise command.Stopped(f'no line of a listing: {row.decode("latin-1")}')
    return Listing(lines, names)


def image_of(listing):
    """The bytes from the lowest to the highest address at which the lines place one."""
    placing = [line for line in listing.lines if line.data]
    first = min((line.address for line in placing), default=0)
    made = bytearray(max((line.address + len(line.data) for line in placing), default=0) - first)
    for line in placing:
        made[line.address - first:line.address - first + len(line.data)] = line.data
    return bytes(made)


def check_image(listing, image):
    """Stops the script if a listing does not have each line, or if the bytes of its lines are not those of an image."""
    if image_of(listing) != image or any(line.number != number for number, line in enumerate(listing.lines, 1)):
        raise command.Stopped('the bytes of the lines are not those that the source is assembled to')
