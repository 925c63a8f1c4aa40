"""The files that a script writes: each as a whole, and none over a file that the script reads."""
import argparse
import contextlib
import errno
import os
import pathlib
import secrets
import shutil
import stat
import sys
import tempfile

from lib.command import STREAM, USAGE, Stopped, unreadable

STANDARD_INPUT, STANDARD_OUTPUT = 0, 1
# the most links that are followed from a name
MOST_LINKS = 40
# the errors of a file that cannot be replaced, but may be one that can be written to
KEPT = (errno.EACCES, errno.EPERM, errno.EROFS, errno.EBUSY)


def file_name(word):
    """A word that names a file."""
    if not word:
        raise argparse.ArgumentTypeError('the name of a file is empty')
    return word


def keep_apart(path, inputs):
    """Stops the script if the file to write is one of its inputs. Each is a path, or STANDARD_INPUT, or the word for
    it."""
    if path is None or path == STREAM or not os.path.isfile(path) or open_file(path) is not None:
        return
    names = [STANDARD_INPUT if name == STREAM else name for name in inputs]
    if any(os.path.exists(name) and os.path.samefile(name, path) for name in names):
        raise Stopped(f'{path}: the output would replace a file that is read', USAGE)


def open_file(path):
    """The number of the open file that a path is a name of, as /dev/stdout is, also by links; None if it is a name of a
    file."""
    for _ in range(MOST_LINKS):
        folder, name = os.path.split(path)
        folder = os.path.realpath(folder)
        if folder == f'/proc/{os.getpid()}/fd' and name.isdecimal():
            return int(name)
        if not os.path.islink(path):
            break
        path = os.path.join(folder, os.readlink(path))
    return None


def write_all(descriptor, data):
    left = memoryview(data)
    while left:
        left = left[os.write(descriptor, left):]


def mode_of(path):
    """The permissions that a file keeps, or that a new one gets."""
    if os.path.exists(path):
        return stat.S_IMODE(os.stat(path).st_mode)
    mask = os.umask(0)
    os.umask(mask)
    return 0o666 & ~mask


def replace(path, data, mode=None):
    """Makes a file of these bytes in one step, so that it is never a part of them. Without a mode it keeps group and
    permissions of the old one."""
    descriptor, new = tempfile.mkstemp(prefix='.ti_bench-', dir=os.path.dirname(path))
    try:
        write_all(descriptor, data)
        if mode is None and os.path.exists(path):
            os.fchown(descriptor, -1, os.stat(path).st_gid)
        os.fchmod(descriptor, mode_of(path) if mode is None else mode)
        os.replace(new, path)
    except BaseException:
        # a signal may come once it has its name
        with contextlib.suppress(FileNotFoundError):
            os.unlink(new)
        raise
    finally:
        os.close(descriptor)


def is_replaceable(path):
    """Whether a new file may take the place of what is at a path: there is nothing, or a file of the user's own that
    has no other name."""
    if not os.path.exists(path):
        return True
    old = os.stat(path)
    return os.path.isfile(path) and old.st_nlink == 1 and old.st_uid == os.geteuid()


def overwrite(path, data):
    """Writes bytes over those of a file or to a device, which must be there."""
    descriptor = os.open(path, os.O_WRONLY)
    try:
        write_all(descriptor, data)
        if os.path.isfile(path):
            os.ftruncate(descriptor, len(data))
    finally:
        os.close(descriptor)


def write_file(path, data):
    """Writes bytes to a file as a whole, or to a device. One that the user may not write to is left as it is. The bytes
    of a file are overwritten if its folder takes no new file, or if it has other names or another owner."""
    path = os.path.realpath(path)
    is_there = os.path.isfile(path)
    if is_there:
        os.close(os.open(path, os.O_WRONLY))
    if is_replaceable(path):
        try:
            return replace(path, data)
        except OSError as error:
            if not is_there or error.errno not in KEPT:
                raise
    return overwrite(path, data)


def write(path, data):
    """Writes bytes: to a file, to a device or an open file as it is, or without a path to standard output."""
    number = STANDARD_OUTPUT if path is None or path == STREAM else open_file(path)
    if number == STANDARD_OUTPUT:
        sys.stdout.buffer.write(data)
        sys.stdout.flush()
        return
    try:
        if number is None:
            write_file(path, data)
        else:
            write_all(number, data)
    except BrokenPipeError:
        raise
    except OSError as error:
        raise unreadable(error, path) from None


def place_files(folder, files):
    """Makes files of a folder, of each its name and its bytes: first all of them in a folder beside them, which has a
    name of its own."""
    kept, names, placed = folder / f'.ti_bench-{secrets.token_hex(8)}', [], []
    try:
        kept.mkdir(mode=0o700)
        for name, data in files:
            (kept / name).write_bytes(data)
            names.append(name)
        for name in names:
            placed.append(folder / name)
            os.rename(kept / name, folder / name)
    except BaseException:
        for path in placed:
            path.unlink(missing_ok=True)
        raise
    finally:
        # a TemporaryDirectory would stay if a signal came while it is made
        shutil.rmtree(kept, ignore_errors=True)


def write_files(folder, files):
    """Writes new files of a folder, which need not be there, of each its name and its bytes: all, or none if it is
    stopped or one of them cannot be written."""
    missing = [path for path in (folder, *folder.parents) if not path.exists()]
    try:
        folder.mkdir(parents=True, exist_ok=True)
        place_files(folder, files)
    except BaseException as error:
        for path in missing:
            with contextlib.suppress(OSError):
                path.rmdir()
        if isinstance(error, OSError):
            raise unreadable(error, folder) from None
        raise
