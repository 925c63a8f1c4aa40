"""Tests of the cartridge of several files, examples/lights: its bytes, its screen and its places."""
import os
import re
import shutil
import subprocess

from calling import TOOLS, TOP, Calling
from expanding.expand import main_file
from joined import joined
from lib.dump import dump
from lib.picture import text_rows
from lib.program import Program

LIGHTS = TOP / 'examples/lights'
# steps that are enough to come to the end
STEPS = '5000'
# a line that is another one in the expanded source
CHANGED = re.compile(r'\.[a-z]| CELL ')


class Lights(Calling):
    def setUp(self):
        super().setUp()
        self.program = Program(os.environ['TI_BENCH'])
        self.made = main_file(str(LIGHTS / 'lights.gpl'), {'BENCH': 1})

    def test_the_bytes_are_those_of_its_files_joined_by_hand(self):
        for made, is_bench in ((self.made, True), (main_file(str(LIGHTS / 'lights.gpl')), False)):
            wanted = self.program.run('gasm', given=joined(LIGHTS, 'lights.gpl', is_bench).encode())
            self.assertEqual(wanted.fault, '')
            self.assertEqual(self.program.run('gasm', given=made.text).out, wanted.out)
            self.assertGreater(len(wanted.out), 900)
            self.assertEqual(b'\x03\x42' in wanted.out, not is_bench)

    def test_a_console_s_image_stops_at_scan_here(self):
        ended = self.program.run('run', STEPS, given=main_file(str(LIGHTS / 'lights.gpl')).text)
        self.assertEqual((ended.status, ended.out[:9]), (7, b'stop 1 at'))

    def test_all_lights_are_out_at_the_end(self):
        ended = self.program.run('run', STEPS, given=self.made.text)
        self.assertEqual((ended.status, ended.out.split()[0]), (0, b'exit'))
        rows = [row.rstrip() for row in text_rows(dump(ended.out.decode()))]
        self.assertEqual(rows, [row.rstrip() for row in (LIGHTS / 'screen').read_text().splitlines()])
        cells = {name: at for name, at, _ in self.made.cells}
        pad = dump(ended.out.decode()).pad
        self.assertEqual((pad[cells['LEFT'] - 0x8300], pad[cells['MOVES'] - 0x8300]), (0, 5))

    def test_each_line_that_stands_in_a_file_has_its_place(self):
        texts = {path.name: path.read_text().split('\n') for path in LIGHTS.glob('*.gpl')}
        self.assertEqual(str(self.made.places[0]), '-D BENCH')
        for line, place in zip(self.made.text.decode().split('\n')[1:], self.made.places[1:]):
            written = texts[place.file][place.number - 1]
            if place.within:
                self.assertIn(place.within[0].macro, written.split()[:2])
            elif not line.startswith('*') and line != written.split(' ')[0] and not CHANGED.search(written):
                self.assertEqual(line, written)

    def test_make_builds_it(self):
        if not shutil.which('make'):
            self.skipTest('no make')
        shutil.copytree(LIGHTS, self.folder / 'lights')
        ended = subprocess.run(['make', '-C', 'lights', f'TOOLS={TOOLS}', f'TI_BENCH={self.program.path}', 'one.gpl',
                                'run'], cwd=self.folder, capture_output=True)
        self.assertEqual(ended.returncode, 0, ended.stderr)
        self.assertEqual((self.folder / 'lights/one.gpl').read_bytes(), self.made.text)
        self.assertIn(b'ALL LIGHTS ARE OUT', ended.stdout)
