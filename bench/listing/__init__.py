"""The reading of the interpreter's listing, which is in tools/listing."""
import pathlib

__path__ = [str(pathlib.Path(__file__).resolve().parents[2] / 'tools/listing')]
