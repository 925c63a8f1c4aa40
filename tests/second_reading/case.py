"""What one run of a program is given, and what must come of it."""
import typing


class Case(typing.NamedTuple):
    program: str    # ti_bench or ti_debug
    words: tuple    # the words of the command line, as text
    given: bytes    # standard input
    files: dict     # the files of the folder: their bytes by name
    status: int
    out: bytes
    err: bytes
    counted: int    # how many units of its part are compared in it: lines, instructions, groups or steps
    # what of the program's standard output is compared with 'out': all of it, or without what the rules leave open
    compared: typing.Callable = bytes


# a part: what makes a case from a random.Random, and the name of what is counted
Part = typing.NamedTuple('Part', [('make', typing.Callable), ('units', str)])
