"""Lines of tests, read one after the other."""
from testing.checks import check_of, data_at
from testing.lines import Wrong
from testing.places import Bit, Bytes, Ends, Row, area_of, place_of
from testing.table import Table
from testing.tests import EXITS, RETURNS, STOPS, Ending, Given, Routine, Test
from testing.values import BadWord, data_of, number
from testing.words import joined, parted, words_of

MOST_STEPS = 100_000
REASONS = range(1, 6)


def ending_of(word, reason=None):
    """How a case is to end by the words of a test; the reason of a stop may also be the word."""
    if word in (RETURNS, EXITS) and reason is None:
        return Ending(word)
    digits = word if reason is None else reason
    if not digits.isdecimal() or int(digits) not in REASONS:
        raise BadWord(f'{digits or "nothing"}: a program stops by a reason from 1 to 5')
    return Ending(STOPS, int(digits))


def given_of(place, text, names):
    """A value before a case."""
    if isinstance(place, Bit):
        value = number(text, names)
        if value not in (0, 1):
            raise BadWord(f'{place.word}: a bit is 0 or 1')
        return Given(place, bool(value))
    if not isinstance(place, (Bytes, Row)):
        raise BadWord(f'{place.word} cannot be given')
    return Given(place, data_at(place, text, names))


class Reader:
    """Takes the lines of tests one after the other; what it has read are tests. The names and the labels of the source
    have values, and each line of its text leads to the next label."""

    def __init__(self, names, labels, label_after):
        self.names, self.labels, self.label_after = names, labels, label_after
        self.tests, self.by_name = [], {}
        self.takers = {'test': self.take_test, 'call': self.take_call, 'from': self.take_from,
                       'given': self.take_given, 'fill': self.take_fill, 'limit': self.take_limit,
                       'expect': self.take_expect}

    def read(self, lines):
        """Reads lines; the tests that they say."""
        first = len(self.tests)
        for line in lines:
            words = words_of(line.said)
            if words:
                try:
                    self.take(line, words)
                except BadWord as error:
                    raise Wrong(line, str(error)) from None
        for test in self.tests[first:]:
            self.finish(test)
        return self.tests[first:]

    def take(self, line, words):
        """Takes a line with words."""
        taker = self.takers.get(words[0])
        test = self.tests[-1] if self.tests and self.tests[-1].line.path == line.path else None
        if not test and words[0] != 'test':
            raise BadWord('no test begins before this line: write test NAME first')
        if taker:
            taker(test, line, words[1:])
        elif '->' in words:
            if test.table:
                raise BadWord('a second table in one test')
            test.table = Table(words, self.names)
        elif test.table:
            test.table.take(line, words, self)
        else:
            raise BadWord(f'{words[0]}: a line begins with {", ".join(self.takers)}, or is a table with ->')

    def take_test(self, _, line, words):
        name = ' '.join(words)
        if not name:
            raise BadWord('a test has a name: test NAME')
        if name in self.by_name:
            other = self.by_name[name]
            raise BadWord(f'a second test {name}; the first is at {other.path}:{other.number}')
        self.by_name[name] = line
        self.tests.append(Test(name, line))

    def label(self, word):
        """A label of the source."""
        if word.upper() not in self.labels:
            what = 'is no label' if word.upper() in self.names else 'is no name of the source'
            raise BadWord(f'{word} {what}')
        return word

    def set_routine(self, test, routine):
        if test.routine:
            raise BadWord('a second routine in one test')
        test.routine = routine

    def take_call(self, test, _, words):
        if len(words) not in (1, 3) or words[1:2] not in ([], ['bytes']):
            raise BadWord('a call is written call LABEL, or call LABEL bytes LIST')
        after_call = data_of(words[2], 1, self.names) if words[2:] else b''
        self.set_routine(test, Routine(self.label(words[0]), True, after_call))

    def take_from(self, test, _, words):
        if len(words) not in (1, 3) or words[1:2] not in ([], ['to']):
            raise BadWord('a stretch is written from LABEL, or from LABEL to LABEL')
        until = self.labels[self.label(words[2]).upper()] if words[2:] else None
        self.set_routine(test, Routine(self.label(words[0]), False, until=until))

    def take_given(self, test, _, words):
        for word in joined(words):
            parts = parted(word)
            if not parts or parts[1] != '=':
                raise BadWord(f'{word}: what is given is written PLACE=VALUE')
            test.given.append(self.given(place_of(parts[0], self.names), parts[2]))

    def take_fill(self, test, _, words):
        if len(words) != 1 or test.fill is not None:
            raise BadWord('fill has one byte, and stands once in a test')
        test.fill = data_of(words[0], 1, self.names)[0]

    def take_limit(self, test, _, words):
        if len(words) != 1 or test.limit is not None:
            raise BadWord('limit has one number, and stands once in a test')
        test.limit = number(words[0], self.names)
        if not 1 <= test.limit <= MOST_STEPS:
            raise BadWord(f'{words[0]}: the steps are from 1 to {MOST_STEPS:,}')

    def take_expect(self, test, line, words):
        words = joined(words)
        if not words:
            raise BadWord('nothing is expected')
        while words:
            word = words.pop(0)
            parts = parted(word)
            if word == 'only':
                test.only, test.only_line = [*(test.only or []), *(area_of(it, self.names) for it in words)], line
                return
            if word in (RETURNS, EXITS, STOPS):
                self.set_ending(test, line, ending_of(word, words.pop(0) if words and word == STOPS else None))
            elif parts:
                place, relation, text = parts
                test.checks.append((line, self.check(place_of(place, self.names), relation, text)))
            else:
                raise BadWord(f'{word}: what is expected is written PLACE=VALUE, only, returns, exits or stops REASON')

    def given(self, place, text):
        """A value before a case."""
        return given_of(place, text, self.names)

    def ending(self, word):
        """How a row of a table is to end."""
        return ending_of(word)

    def check(self, place, relation, text):
        """What must hold of a place."""
        if isinstance(place, Ends):
            raise BadWord('ends is a column of a table; a line has returns, exits or stops REASON')
        return check_of(place, relation, text, self.names)

    def set_ending(self, test, line, ending):
        if test.ending:
            raise BadWord('a second end of one test')
        test.ending, test.ending_line = ending, line

    def finish(self, test):
        """Looks whether a test is complete."""
        if test.table and not test.table.rows:
            raise Wrong(test.line, f'the table of {test.name} has no row')
        if not test.routine:
            label = self.label_after(test.line)
            if not label:
                raise Wrong(test.line, f'{test.name} says no routine: write call LABEL, or from LABEL to LABEL')
            test.routine = Routine(label, True)
        for row in test.rows:
            if not test.asks(row):
                raise Wrong(row.line, f'nothing is expected of {test.name}')
            if (row.ending or test.ending) == Ending(RETURNS) and not test.routine.is_called:
                raise Wrong(row.line, 'returns goes with call: what is begun by from has no place to return to')
