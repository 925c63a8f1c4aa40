"""What is doubtful in a labelled source, in lines for a person: what calls take, what might be an address, and what
might be code."""
import re

MOST = 20            # lines of each kind
LEAST = 4            # instructions that might be code


def found(addresses, listing, rows, executed):
    """The lines of all doubts. `executed` has the addresses that a run executed and that are not listed as
    instructions."""
    descent = addresses.descent
    kinds = [[f'>{at:04X}: executed, but not listed as an instruction' for at in executed],
             _calls(descent), _outside_calls(descent.subroutines),
             [f'>{at:04X}: {what}' for at, what in sorted(descent.odd.items())],
             [f'>{at:04X}: --takes names it, but no call of it was found'
              for at in addresses.wishes.takes if at not in descent.subroutines.called],
             [f'>{at:04X}: the call came back to another place than --takes {target:04X} says'
              for at, target in sorted(descent.subroutines.denied.items())],
             _values(addresses), _words(rows), _code(addresses, listing, rows)]
    return [line for lines in kinds for line in _few(lines)]


def _calls(descent):
    """The calls after which the program goes on at a place that is not certain, those with one reason together."""
    places: dict = {}
    for at, unsure in sorted(descent.unsure.items()):
        places.setdefault((descent.code[at].leads[0].address, unsure), []).append(at)
    return [f'>{at:04X}: it is not known how many bytes >{target:04X} takes after this call{_more(more)}: '
            f'{_inner(target, unsure)}{unsure.cause}; --takes {unsure.target:04X}=N would say it'
            for (target, unsure), (at, *more) in places.items()]


def _outside_calls(subroutines):
    return [f'>{at:04X}: >{target:04X} is outside of the image, and is taken to take no bytes after a call; '
            f'--takes {target:04X}=N says otherwise' for target, at in sorted(subroutines.outside.items())]


def _inner(target, unsure):
    return '' if unsure.target == target else f'it calls >{unsure.target:04X}, of which it is not known, since '


def _more(places):
    return f' and {len(places)} more' if places else ''


def outside(image, wishes):
    """The lines of entries and ranges that are outside of an image, of a range also if a part of it is."""
    lines = [f'>{at:04X}: this entry is outside of the image' for at in wishes.entries if not image.holds(at, 1)]
    for low, high in dict.fromkeys(wishes.data + wishes.pointers + wishes.tables):
        held = sum(image.places[low:high])
        if held < high - low:
            what = 'a part of this range' if held else 'this range'
            lines.append(f'>{low:04X}-{high - 1:04X}: {what} is outside of the image')
    return lines


def _few(lines):
    return lines if len(lines) <= MOST else [*lines[:MOST - 1], f'and {len(lines) - MOST + 1} more of this kind']


def _values(addresses):
    """The values in instructions, each once."""
    places = {}
    for at, references in sorted(addresses.of.items()):
        for it in references.doubtful:
            places.setdefault(it.address, []).append(at)
    return [f'>{found_at[0]:04X}: >{value:04X} might be an address'
            + (f', and in {len(found_at) - 1} more instructions' if len(found_at) > 1 else '')
            for value, found_at in places.items()]


def _words(rows):
    """The words of data that might be addresses, in adjacent rows together."""
    marked = [(row.address, row.address + row.length) for row in rows
              if row.is_data and re.search(r'>[0-9A-F]{4}\?$', row.note)]
    return [f'>{low:04X}-{high - 1:04X}: words that might be addresses' for low, high in _joined(marked)]


def _joined(ranges):
    """Ranges, with those as one that follow each other."""
    found = []
    for low, high in ranges:
        if found and found[-1][1] == low:
            low = found.pop()[0]
        found.append((low, high))
    return found


def _code(addresses, listing, rows):
    """The first places in bytes that are not reached from which they are listed as instructions up to one that ends a
    path."""
    places = [_code_in(addresses, listing, low, high) for low, high in _unreached(addresses, rows)]
    return [f'>{at:04X}: might be code' for at in places if at is not None]


def _unreached(addresses, rows):
    """The ranges of bytes of which nothing is known, from each label on."""
    known = {at for low, high in addresses.wishes.data + addresses.wishes.tables for at in range(low, high)}
    known |= {at + more for at, count in addresses.descent.taken.items() for more in range(count)}
    known |= {at + more for at, it in addresses.descent.others.items() for more in range(it.length)}
    found = []
    for row in rows:
        is_plain = row.is_data and row.forms[0].startswith(('BYTE', 'DATA'))
        if is_plain and row.address not in addresses.words and row.address not in known:
            found += [[]] if row.label or not found else []
            found[-1].append((row.address, row.address + row.length))
    return [it for ranges in found for it in _joined(ranges)]


def _code_in(addresses, listing, low, high):
    """Where instructions begin that look like a part of a program, or None."""
    language, at, count = addresses.language, low, 0
    while at < high:
        line = listing.line(at)
        if line and line.is_code and all(addresses.image.held[it.address] for it in line.leads):
            low, count = low if count else at, count + 1
            if line.operation in language.ends:
                if count >= LEAST and at + line.length <= high:
                    return low
                count = 0
        else:
            count = 0
        at += line.length if line else 1
    return None
