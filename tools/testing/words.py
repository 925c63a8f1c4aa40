"""The words of a line of tests."""
import re

WORD = re.compile(r"(?:'(?:[^']|'')*'|[^\s'])+|'.*")
RELATION = re.compile(r"((?:[^=!<>']|>(?!=)|<(?!=)|!(?!=))*)(!=|<=|>=|=)(.*)", re.S)
# words that go on with the one before them, and words that go on with the one after them
GOES_ON = re.compile(r'(?:!=|<=|>=|=|,)')
IS_OPEN = re.compile(r'(?:!=|<=|>=|=|,)\Z')


def words_of(said):
    """The words of a line, apart by blanks outside of quotes."""
    return WORD.findall(said)


def joined(words):
    """Words of which those around a relation or a comma are one."""
    made = []
    for word in words:
        if made and (GOES_ON.match(word) or IS_OPEN.search(made[-1])):
            made[-1] += word
        else:
            made.append(word)
    return made


def parted(word):
    """A place, a relation and a value that one word says; None if it has no relation."""
    found = RELATION.fullmatch(word)
    return found.groups() if found else None


def cell_of(word):
    """The relation and the value of a column's word."""
    found = re.match('!=|<=|>=', word)
    return (found[0], word[found.end():]) if found else ('=', word)
