"""Programs of the system's packages that a test needs, and that a gate without them may install."""
import os
import shutil
import subprocess


def found(names, packages):
    """The path of the first program of these names that there is. If there is none, and this is root with the variable
    CI, the packages are installed first, if the system has them; None if there is still none."""
    path = next(filter(None, map(shutil.which, names)), None)
    if path or not os.environ.get('CI') or os.geteuid():
        return path
    for words in (['update'], ['install', '-y', '--no-install-recommends', *packages]):
        subprocess.run(['apt-get', *words], stdout=subprocess.DEVNULL, stderr=subprocess.DEVNULL,
                       stdin=subprocess.DEVNULL)
    return next(filter(None, map(shutil.which, names)), None)
