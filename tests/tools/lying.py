"""Programs that lie: each runs the real one, and says something else of one of its commands, or stops in the middle."""
import pathlib
import shlex

LIAR = """#!/usr/bin/env python3
import pathlib, re, subprocess, sys
ended = subprocess.run([{real!r}, *sys.argv[1:]], input=sys.stdin.buffer.read(), stdout=subprocess.PIPE)
out, status = ended.stdout, ended.returncode
if sys.argv[1:2] == [{command!r}] and sys.argv[2:] != ['0']:
    out, status = re.sub({pattern!r}, {new!r}, out, count=1, flags=re.M), {status!r} or status
    if (out, status) != (ended.stdout, ended.returncode):
        pathlib.Path({told!r}).touch()
sys.stdout.buffer.write(out)
sys.exit(status)
"""

SLEEPER = """#!/bin/sh
if [ "$1" = {command} ] && [ "$2" != 0 ]; then
    cat "$0.begun"
    exec sleep 60
fi
exec {real} "$@"
"""


def written(folder, kind, real, text):
    """The path of a program in a folder of its own, by its text."""
    path = pathlib.Path(folder, kind, pathlib.Path(real).name)
    path.parent.mkdir(exist_ok=True)
    path.write_text(text)
    path.chmod(0o755)
    return str(path)


def sleeper(folder, real, command, begun=b''):
    """The path of a program that begins the report of a command so, but not of a run of 0 steps, and then does nothing
    for a minute."""
    path = written(folder, 'sleeper', real, SLEEPER.format(real=shlex.quote(real), command=command))
    pathlib.Path(f'{path}.begun').write_bytes(begun)
    return path


def liar(folder, real, command, pattern=b'', new=b'', status=None):
    """The path of a program that lies about a command, but not about a run of 0 steps: in place of the first match of a
    pattern it writes something else, or it ends with another status. When it has lied, the folder has a file `lied`."""
    text = LIAR.format(real=real, command=command, pattern=pattern, new=new, status=status,
                       told=str(pathlib.Path(folder, 'lied')))
    return written(folder, 'liar', real, text)
