"""What a report of `trace` says of an image: which instructions were executed, and where calls came back."""
import re
import typing

STEP = re.compile(r'^(?: *(\d+)|gpl) >([0-9A-F]{4}) S.. D.. R([0-9A-F]{2})(?: (\w+)|$)', re.MULTILINE)


class Step(typing.NamedTuple):
    """A step: its number, where its instruction is, the offset of the last return address before it, its operation. The
    place at which a run ended has no operation."""
    number: int
    at: int
    top: int
    operation: str


def steps(text):
    """The steps that a report shows, and the place at which it ended."""
    found: list = []
    for number, at, top, operation in STEP.findall(text):
        number = int(number) if number else found[-1].number + 1 if found else 0
        found.append(Step(number, int(at, 16), int(top, 16), operation))
    return found


def executed(found):
    """The addresses of the instructions that were executed, each once."""
    return list(dict.fromkeys(step.at for step in found if step.operation))


def returns(found):
    """Where calls came back: the places to which they did, by the addresses of their CALLs. A call has come back when
    a RTN takes the return address from the cell that the CALL stored it to."""
    back: dict = {}
    open_: list = []
    for step, after in zip(found, found[1:]):
        if after.number != step.number + 1:
            open_ = []
        elif step.operation == 'CALL':
            open_.append((step.at, after.top))
        elif step.operation in ('RTN', 'RTNC'):
            while open_ and open_[-1][1] > step.top:
                open_.pop()
            if open_ and open_[-1][1] == step.top:
                back.setdefault(open_.pop()[0], set()).add(after.at)
    return back
