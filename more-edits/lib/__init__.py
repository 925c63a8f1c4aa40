"""The library of the scripts, which is in tools/lib."""
import pathlib

__path__ = [str(pathlib.Path(__file__).resolve().parents[2] / 'tools/lib')]
