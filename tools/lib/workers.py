"""Processes that work side by side, and end with the script that began them."""
import concurrent.futures
import contextlib
import multiprocessing
import os
import signal
import threading
import time

from lib.command import ENDS, Ended

# how often a process looks whether its script is still there
SECONDS = 0.5
# the signals that a script hears
HEARD = (signal.SIGINT, *ENDS)


class Worker:
    """A process that works: whether it does so now, and whether it is to end."""
    is_working = is_ended = False


def stop(number, frame):
    """What Ctrl-C does in a process that works, and its script if it ends: the work is broken off, and the process
    begins no more."""
    is_first, Worker.is_ended = not Worker.is_ended, True
    if Worker.is_working and is_first:
        raise Ended(number)


def end_with(script):
    """Ends the process once its script has ended, whatever has ended that."""
    while os.getppid() == script:
        time.sleep(SECONDS)
    os._exit(1)


def begin():
    """Prepares a process that works. A signal to it alone ends it, as it ends other programs."""
    threading.Thread(target=end_with, args=[os.getppid()], daemon=True).start()
    signal.signal(signal.SIGINT, stop)
    for number in ENDS:
        if signal.getsignal(number) != signal.SIG_IGN:
            signal.signal(number, signal.SIG_DFL)
    signal.pthread_sigmask(signal.SIG_UNBLOCK, HEARD)


def done(work, *given):
    """What work gives, unless the process is to end."""
    Worker.is_working = True
    try:
        if Worker.is_ended:
            raise Ended(signal.SIGINT)
        return work(*given)
    finally:
        Worker.is_working = False


class Workers(concurrent.futures.ProcessPoolExecutor):
    """Some processes that work side by side. If the script is stopped they break off what they do, and what is not
    begun is dropped."""

    def __init__(self, count):
        super().__init__(count, initializer=begin)

    def submit(self, work, *given):
        # a process that is begun here hears no signal before it is prepared: it would do what the script does
        before = signal.pthread_sigmask(signal.SIG_BLOCK, HEARD)
        try:
            return super().submit(done, work, *given)
        finally:
            signal.pthread_sigmask(signal.SIG_SETMASK, before)

    def __exit__(self, kind, error, trace):
        if kind:
            for worker in multiprocessing.active_children():
                with contextlib.suppress(ProcessLookupError):
                    os.kill(worker.pid, signal.SIGINT)
        self.shutdown(cancel_futures=bool(kind))
