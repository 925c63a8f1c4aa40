"""The patterns of a picture, eight points by eight, and the colours of each group of eight characters."""
import typing

from lib.picture import COLOURS

SIZE, GROUP, TRANSPARENT = 8, 8, 0


class Character(typing.NamedTuple):
    """A character of a picture: where its first point is, and the number of the colour of each point by lines."""
    x: int
    y: int
    lines: list

    @property
    def colours(self):
        """The colours that it has, the lightest first."""
        return sorted({point for line in self.lines for point in line}, key=lightness, reverse=True)


def lightness(number):
    """How light a colour is; what is transparent is the darkest."""
    return sum(COLOURS[number]) if number != TRANSPARENT else -1


def nearest(point):
    """The number of the colour of the video processor that is nearest to a point; 0 if it is transparent."""
    red, green, blue, alpha = point
    if alpha < 128:
        return TRANSPARENT
    return min(range(1, len(COLOURS)), key=lambda it: sum((a - b) ** 2 for a, b in zip(COLOURS[it], point)))


def characters(lines, by_columns):
    """The characters of a picture, row after row from the left, or column after column from the top."""
    known = {}
    numbers = [[known.get(point) if point in known else known.setdefault(point, nearest(point)) for point in line]
               for line in lines]
    places = [(x, y) for y in range(0, len(lines), SIZE) for x in range(0, len(lines[0]), SIZE)]
    for x, y in sorted(places) if by_columns else places:
        yield Character(x, y, [line[x:x + SIZE] for line in numbers[y:y + SIZE]])


def pairs(found):
    """The colours of each group: that of the points of its patterns, and that behind them. The lighter one is that of
    the points; one colour alone is that of the points, unless it is the darkest of all, as transparent or black."""
    for at in range(0, len(found), GROUP):
        group = sorted({colour for it in found[at:at + GROUP] for colour in it.colours}, key=lightness, reverse=True)
        yield (group[0], group[1]) if len(group) > 1 else (group[0], TRANSPARENT) if group[0] > 1 else (
            TRANSPARENT, group[0])


def faults(found):
    """What cannot be shown: places at which a group has a third colour."""
    for at in range(0, len(found), GROUP):
        kept = []
        for number, it in enumerate(found[at:at + GROUP], at):
            kept += [colour for colour in it.colours if colour not in kept]
            if len(kept) > 2:
                yield (f'the character {number}, at {it.x},{it.y}, is the first of its group that needs a third '
                       f'colour: {", ".join(map(str, kept))}')
                break


def pattern(character, ink):
    """The eight bytes of a character: a bit is set where the point has the colour of the points."""
    return bytes(sum((point == ink) << SIZE - 1 - at for at, point in enumerate(line)) for line in character.lines)
