"""Tests of the models of tests/peers: without MAME, beside the program."""
import os
import random
import subprocess
import sys
import tempfile
import unittest

from calling import TOP, Calling
from lib.program import Program, other

sys.path.append(str(TOP / 'tests'))

from peering import models, ports
from peering.processor import OURS
from peering.programs import Maker, object_source

READING = TOP / 'tests/second_reading'
STEPS = '10000'
# writes what a model says of the sources that it is given, one after the other
SCRIPT = """
import sys
sys.path[:0] = sys.argv[1:3]
from peering import models
model = models.Model(sys.argv[3])
for path in sys.argv[4:]:
    with open(path, 'rb') as source:
        module = model.run('asm', given=source.read())
    with open(path + '.steps', 'wb') as text:
        text.write(model.run('steps', '10000', given=module.out).out)
"""


def instructions(text):
    """The address, workspace, status and operation of each line of `steps`, and what is shown after the lines."""
    lines = text.decode().splitlines()
    end = lines.index('pad')
    return [row.groups() for row in map(OURS.match, lines[:end]) if row], lines[end:]


class Models(Calling):
    def setUp(self):
        super().setUp()
        self.bench = Program(os.environ['TI_BENCH'])
        self.debugger = Program(other(self.bench.path, 'ti_debug'))
        sources = [object_source(Maker(f'7 {number}').made(60)) for number in range(4)]
        sources += [ports.Accesses(random.Random(f'7 {number}')).made()[0] for number in range(2)]
        self.sources = [self.file(f'{number}.a', source) for number, source in enumerate(sources)]

    def said(self, name):
        """What a model says of each source."""
        with tempfile.TemporaryDirectory() as folder:
            models.copied(READING, name, folder)
            ended = subprocess.run([sys.executable, '-E', '-c', SCRIPT, TOP / 'tools', TOP / 'tests', folder,
                                    *self.sources], capture_output=True)
        self.assertEqual((ended.returncode, ended.stderr), (0, b''))
        return [instructions(path.with_name(f'{path.name}.steps').read_bytes()) for path in self.sources]

    def program_says(self):
        """What the program says of each source."""
        modules = [self.bench.run('asm', given=path.read_bytes()) for path in self.sources]
        return [instructions(self.debugger.run('steps', STEPS, given=module.out).out) for module in modules]

    def test_the_right_model_is_as_the_program(self):
        for (ours, dump), (theirs, shown) in zip(self.program_says(), self.said(models.RIGHT)):
            self.assertEqual((ours, dump), (theirs, shown))

    def test_each_wrong_model_differs(self):
        right = self.said(models.RIGHT)
        for name in models.WRONG:
            with self.subTest(name):
                self.assertNotEqual(self.said(name), right)

    def test_a_rule_that_is_not_there_once_is_named(self):
        rule = models.Rule('a.py', 'left', 'right', 'ports')
        with self.assertRaisesRegex(ValueError, 'a.py: the line left is there 2 times'):
            models.turned('left\n  left\n', rule)


if __name__ == '__main__':
    unittest.main()
