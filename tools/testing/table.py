"""A table of cases: names over columns, and a row for each case."""
from testing.places import Ends, place_of
from testing.tests import Row
from testing.values import BadWord
from testing.words import cell_of

# a column's word if the column says nothing for a case
NOTHING = '.'


class Table:
    """A table: what its columns give, what must hold of the others, and its rows."""

    def __init__(self, words, names):
        if words.count('->') > 1:
            raise BadWord('-> stands twice')
        cut = words.index('->')
        self.given = [place_of(word, names) for word in words[:cut]]
        self.asked = [place_of(word, names) for word in words[cut + 1:]]
        self.rows = []
        if not self.asked:
            raise BadWord('after -> stand the columns of what is expected')

    def take(self, line, words, reader):
        """Takes a row; the reader knows what its words say."""
        columns = len(self.given) + len(self.asked)
        if len(words) != columns:
            raise BadWord(f'the table has {columns} column{"s" * (columns > 1)}, and this row {len(words)}')
        given = [(place, word) for place, word in zip(self.given, words) if word != NOTHING]
        row = Row(line, ' '.join(f'{place.word}={word}' for place, word in given), [], [], None)
        row.given = [reader.given(place, word) for place, word in given]
        for place, word in zip(self.asked, words[len(self.given):]):
            if word == NOTHING:
                continue
            if isinstance(place, Ends):
                row.ending = reader.ending(word)
            else:
                row.checks.append((line, reader.check(place, *cell_of(word))))
        self.rows.append(row)
