"""What the program answers, over bytes."""
from lib.command import FAILED, MOST_BYTES, UNREADABLE, Stopped

LIMIT = MOST_BYTES


class Rejected(Exception):
    """An input that the program rejects, with its fault line; or one that is rejected here."""


class RejectedLine(Rejected):
    """A line of a file that is rejected here: the path of the file, the number of the line, the cause, and a note if
    there is one."""

    def __init__(self, path, number, cause, note=None):
        super().__init__(f'{path}:{number}: {cause}')
        self.path, self.number, self.cause, self.note = path, number, cause, note


def report(program, *words, given=b'', folder=None):
    """What the program writes for the words and the input, in a folder."""
    run = program.run(*words, given=given, folder=folder)
    if run.status == FAILED:
        raise Rejected(run.fault)
    if run.status:
        raise Stopped(f'{program.path} {" ".join(words)}: status {run.status} {run.fault}'.rstrip(), UNREADABLE)
    return run.out
