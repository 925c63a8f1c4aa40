"""How the tests call a script: in a folder of their own, over bytes."""
import os
import pathlib
import resource
import signal
import subprocess
import tempfile
import unittest

TOP = pathlib.Path(__file__).resolve().parent.parent.parent
TOOLS = TOP / 'tools'


def hearing():
    """Lets a process hear the signals to end, which the tests may have been begun without, as under nohup."""
    for number in (signal.SIGHUP, signal.SIGINT, signal.SIGQUIT, signal.SIGTERM):
        signal.signal(number, signal.SIG_DFL)


def is_running(process):
    """Whether a process has not ended; one that nobody has waited for has."""
    try:
        return pathlib.Path('/proc', process, 'stat').read_text().rpartition(')')[2].split()[0] != 'Z'
    except OSError:
        return False


class Calling(unittest.TestCase):
    """Tests with a folder for files, whose name has a blank."""

    def setUp(self):
        kept = tempfile.TemporaryDirectory(prefix='ti bench ')
        self.addCleanup(kept.cleanup)
        self.folder = pathlib.Path(kept.name)

    def call(self, script, *words, given=b'', **environment):
        """How a script of tools/ ends, in the folder: status and both outputs."""
        return subprocess.run([TOOLS / script, *words], input=given, capture_output=True, cwd=self.folder,
                              env={**os.environ, **environment})

    def file(self, name, data):
        """A new file in the folder."""
        path = self.folder / name
        path.parent.mkdir(parents=True, exist_ok=True)
        path.write_bytes(data)
        return path

    def apart(self, work, limit=None, user=None):
        """The error of work in a process of its own, none if there is no error. The process may make files of so many
        bytes, and has lost the rights of root to be a user."""
        reader, writer = os.pipe()
        child = os.fork()
        if not child:
            try:
                if limit is not None:
                    signal.signal(signal.SIGXFSZ, signal.SIG_IGN)
                    resource.setrlimit(resource.RLIMIT_FSIZE, (limit, limit))
                if user is not None and os.geteuid() == 0:
                    os.setgroups([])
                    os.setgid(user)
                    os.setuid(user)
                work()
            except BaseException as error:
                os.write(writer, str(error).encode())
            os._exit(0)
        os.close(writer)
        with open(reader, 'rb') as said:
            text = said.read().decode()
        os.waitpid(child, 0)
        return text
