"""What a comparison comes to: how much was compared, what differs for a known reason, and what differs for none."""
import collections

SHOWN = 5


class Part:
    """One part of the comparison."""

    def __init__(self, name):
        self.name, self.count, self.known, self.bad = name, 0, collections.Counter(), []

    def add(self, same, difference, reason=None):
        """Counts something that was compared; if it is not the same, what differs, and the known reason if there is
        one."""
        self.count += 1
        if same:
            return
        if reason:
            self.known[reason] += 1
        else:
            self.bad.append(difference())

    def rows(self):
        """The result, as lines."""
        yield f'{self.name}: {self.count:,} compared, {len(self.bad)} bad'
        for reason, count in sorted(self.known.items()):
            yield f'  {count:,} differ: {reason}'
        for text in self.bad[:SHOWN]:
            yield f'  bad: {text}'
