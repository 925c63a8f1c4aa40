"""The files that a source names: regular files of the main file's folder, by the rules of COPY of assembler sources."""
import errno
import os
import re
import stat

from lib.command import UNREADABLE, Stopped

OPERAND = re.compile(r'(["\'])([0-9A-Za-z_-][0-9A-Za-z._-]{0,59})\1')
# the depth of a COPY line that is refused, the most COPY lines, and the most bytes of a file
TOO_DEEP, MOST_COPIES, MOST_BYTES = 4, 64, 262_144


def name_in(operands):
    """The name of a file in quotes, or None."""
    found = OPERAND.fullmatch(operands)
    return found and found[2]


def data_of(folder, name):
    """The bytes of a file, of which no more are read than one above the most; None if the folder has no regular file of
    the name."""
    path = os.path.join(folder, name)
    try:
        descriptor = os.open(path, os.O_RDONLY | os.O_NOFOLLOW | os.O_NONBLOCK)
        with open(descriptor, 'rb') as file:
            return file.read(MOST_BYTES + 1) if stat.S_ISREG(os.fstat(descriptor).st_mode) else None
    except IsADirectoryError:
        return None
    except OSError as error:
        if error.errno in (errno.ENOENT, errno.ELOOP, errno.ENXIO):
            return None
        raise Stopped(f'{path}: {error.strerror}', UNREADABLE) from None
