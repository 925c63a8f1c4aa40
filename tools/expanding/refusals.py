"""Refused lines of an expansion: the first one ends it; or each is left out, and the expansion goes on."""
from expanding.lines import parts_of
from expanding.places import Refused

# the operations whose label is no place
VALUED = {'EQU', 'END'}


class Refusals:
    """The refusals that are met, up to so many, of which the last one ends the expansion. Local labels are in them as
    they are written."""

    def __init__(self, most, labels):
        self.most, self.labels, self.found = most, labels, {}

    def note(self, refused):
        """Notes a refusal; the same one may be met again where the lines of an outer file go on."""
        refused = Refused(refused.place, *self.labels.spelled([refused.cause, refused.text]))
        self.found.setdefault(str(refused), refused)
        if len(self.found) >= self.most:
            raise refused


def label_left(text, known):
    """What is left of a line that is left out: its label, if that is the name of a place. The operations and directives
    of its language are known."""
    parts = parts_of(text)
    is_place = parts.operation.upper() in known - VALUED and '.' not in parts.label
    return parts.label if is_place and not text.startswith('*') else ''


def leave_out(expansion, place, text):
    """Leaves out a line that was made before, by its place."""
    for number, it in enumerate(expansion.places):
        if it == place:
            expansion.texts[number] = label_left(text, expansion.words.known)
            expansion.left_out.append((number + 1, text))


def note_missing(expansion):
    """Notes the local labels that no line has, and leaves out where each is used first."""
    for local in expansion.labels.found:
        if local.place is None:
            missing = f'unknown name: there is no {local.spelled}'
            expansion.refusals.note(Refused(local.use, missing, local.text))
            leave_out(expansion, local.use, local.text)
