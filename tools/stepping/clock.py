"""How long the program may run for a tool that looks at steps."""
import argparse
import re
import time

from lib import command

SECONDS = 60


class Clock:
    """The seconds that all runs of the program may take together, from now on, and what helps if it takes more."""

    def __init__(self, seconds, remedy='--seconds gives it more'):
        self.seconds, self.end, self.remedy = seconds, time.monotonic() + seconds, remedy

    @property
    def left(self):
        """How many are left."""
        return max(0, self.end - time.monotonic())

    @property
    def cut(self):
        """Why the last steps of a run are left out."""
        return f'more would take longer than {self.seconds:g} seconds'

    def over(self):
        """What stops a script if none is left."""
        return command.Stopped(f'the program runs longer than {self.seconds:g} seconds; {self.remedy}')


def seconds(word):
    if not re.fullmatch(r'[0-9]{1,6}(\.[0-9]{1,6})?', word, re.ASCII):
        raise argparse.ArgumentTypeError(f'{word}: no number of seconds')
    return float(word)


def option(parser):
    """The option that says how long."""
    parser.add_argument('--seconds', metavar='S', type=seconds, default=SECONDS,
                        help=f'how long the program may run in all, {SECONDS} seconds if it is not given; steps after '
                        'half of that are left out, and the rest is for the state to compare')
