"""Tests of tools/cartridge: whole GROMs, packed cartridges, and what takes up the room."""
import io
import os
import re
import subprocess
import xml.etree.ElementTree
import zipfile

from calling import TOP, TOOLS, Calling
from lib.program import Program

LIGHTS = TOP / 'examples/lights/lights.gpl'
SOURCE = b'''       BYTE 1
COUNT  EQU  >8300
START  ST   @COUNT,5
       TEXT 'UNUSED'
UNUSED BSS  2
TABLE  DATA START,TABLE
       GROM >8000
       AORG >17FF
HIGH   BYTE 2,3
       END  START
'''
REPORT = '''GROM >6000: 14 of 8,192 bytes, 0%, up to >600F
GROM >8000: 2 of 8,192 bytes, 0%, up to >9800, 1 of them from >9800 on
bytes by file:
    16  a.gpl
bytes by label:
     1  before the first label
     9  >6001 START  a.gpl:3
     4  >600C TABLE  a.gpl:6
     2  >97FF HIGH   a.gpl:9
a.gpl:5: nothing uses UNUSED
a.gpl:9: nothing uses HIGH
'''


class Cartridge(Calling):
    def image(self, source):
        return Program(os.environ['TI_BENCH']).run('gasm', given=source).out

    def test_the_report(self):
        self.file('a.gpl', SOURCE)
        ended = self.call('cartridge', 'a.gpl')
        self.assertEqual((ended.returncode, ended.stderr, ended.stdout.decode()), (0, b'', REPORT))

    def test_all_bytes_are_counted_by_file_and_by_label(self):
        ended = self.call('cartridge', '-D', 'BENCH', LIGHTS)
        head, files, labels = re.split('bytes by file:|bytes by label:', ended.stdout.decode())
        total = int(re.search(': ([0-9,]+) of', head)[1].replace(',', ''))
        for rows in (files, labels):
            counts = re.findall(r'(?m)^ *([0-9,]+)  ', rows)
            self.assertEqual(sum(int(count.replace(',', '')) for count in counts), total)
        self.assertGreater(total, 900)
        self.assertIn('cells.gpl:20: nothing uses SHAPE0\n', labels)
        # neither names of -D nor local labels have a row
        self.assertNotRegex(labels, 'BENCH|(LIT|WON|LIGHT|NONE)[0-9]')

    def test_a_name_of_equ_is_no_label(self):
        self.file('a.gpl', b'A      BYTE 1,2,3\nB      EQU  >6001\n')
        self.assertIn(b'\n     3  >6000 A      a.gpl:1\na.gpl:1: nothing', self.call('cartridge', 'a.gpl').stdout)

    def test_the_uses_of_a_name(self):
        ended = self.call('cartridge', '-D', 'BENCH', LIGHTS, '--uses', 'draw.lit')
        self.assertEqual(ended.stdout.decode().splitlines()[1:], ['board.gpl:65: BR   .lit'])
        self.file('a.gpl', SOURCE)
        ended = self.call('cartridge', 'a.gpl', '--uses', 'start')
        self.assertEqual(ended.stdout.decode(), 'a.gpl:3: START is >6001\na.gpl:6: TABLE  DATA START,TABLE\n'
                                                'a.gpl:10: END  START\n')
        ended = self.call('cartridge', 'a.gpl', '--uses', 'STAR')
        self.assertEqual((ended.returncode, ended.stderr), (1, b'tools/cartridge: the source has no name STAR\n'))

    def test_the_uses_of_a_macro(self):
        self.file('part.gpl', b'ONE    MACRO\n       TWO  \\x,5\n       ENDM\nTWO    MACRO A,B\n'
                              b"       ST   \\A,\\B\n       ENDM\n".replace(b'\\x', b'@>8300'))
        self.file('a.gpl', b'       COPY "part.gpl"\nTWO    ONE\n       two  @>8302,7\n       B    TWO\n       END  TWO\n')
        self.assertEqual(self.call('cartridge', 'a.gpl', '--uses', 'one').stdout.decode().splitlines(), [
            'part.gpl:1: ONE is a macro', 'a.gpl:2: TWO    ONE'])
        self.assertEqual(self.call('cartridge', 'a.gpl', '--uses', 'Two').stdout.decode().splitlines(), [
            'part.gpl:4: TWO is a macro of A, B', 'a.gpl:2, in ONE of part.gpl:2: TWO  @>8300,5',
            'a.gpl:3: two  @>8302,7', 'a.gpl:2: TWO is >6000', 'a.gpl:4: B    TWO', 'a.gpl:5: END  TWO'])
        ended = self.call('cartridge', LIGHTS, '--uses', 'SAY')
        self.assertEqual((ended.returncode, ended.stderr), (0, b''))
        self.assertRegex(ended.stdout.decode(), r'\Amacros.gpl:[0-9]+: SAY is a macro of .*\n[a-z]+.gpl:[0-9]+: ')

    def test_the_image_is_filled_up_to_whole_groms(self):
        self.file('a.gpl', SOURCE)
        ended = self.call('cartridge', 'a.gpl', '-o', 'aG.bin', '--rpk', 'a.rpk')
        self.assertEqual((ended.returncode, ended.stdout, ended.stderr), (0, b'', b''))
        data = (self.folder / 'aG.bin').read_bytes()
        image = self.image(SOURCE)
        self.assertEqual(data, image + bytes(0x4000 - len(image)))
        self.file('b.gpl', b' AORG >10\n BYTE 7\n')
        self.call('cartridge', 'b.gpl', '-o', 'bG.bin')
        self.assertEqual((self.folder / 'bG.bin').read_bytes(), bytes(16) + b'\7' + bytes(0x2000 - 17))

    def test_a_packed_cartridge_names_its_image(self):
        self.file('a.gpl', SOURCE)
        for name in ('one', 'two'):
            (self.folder / name).mkdir()
            self.call('cartridge', 'a.gpl', '-o', 'aG.bin', '--rpk', f'{name}/a.rpk')
        made = (self.folder / 'one/a.rpk').read_bytes()
        self.assertEqual(made, (self.folder / 'two/a.rpk').read_bytes())
        with zipfile.ZipFile(io.BytesIO(made)) as archive:
            self.assertEqual({it.date_time for it in archive.infolist()}, {(1980, 1, 1, 0, 0, 0)})
            self.assertEqual(archive.namelist(), ['aG.bin', 'layout.xml'])
            self.assertEqual(archive.read('aG.bin'), (self.folder / 'aG.bin').read_bytes())
            layout = xml.etree.ElementTree.fromstring(archive.read('layout.xml'))
        rom, socket = layout.find('resources/rom'), layout.find('configuration/pcb/socket')
        self.assertEqual((rom.get('file'), socket.get('uses')), ('aG.bin', rom.get('id')))

    def test_what_is_no_cartridge_is_refused(self):
        for source, status, text in ((b' GROM >4000\n BYTE 1\n', 1, 'the GROMs below >6000 are those of the console'),
                                     (b' RTN X\n FOO\n', 1, 'a.gpl:2: unknown operation\n     FOO'),
                                     (b' END\n', 1, 'the source places no byte'),
                                     (b' COPY "B"\n', 1, 'a.gpl:1: missing B\n     COPY "B"')):
            self.file('a.gpl', source)
            ended = self.call('cartridge', 'a.gpl', '-o', 'out')
            self.assertEqual((ended.returncode, ended.stdout), (status, b''))
            self.assertTrue(ended.stderr.decode().rstrip().endswith(text), ended.stderr)
            self.assertFalse((self.folder / 'out').exists())

    def test_files_and_words_that_do_not_fit(self):
        self.file('a.gpl', SOURCE)
        for words, status, text in ((['none.gpl'], 3, 'No such file or directory'),
                                    (['a.gpl', '-o', 'a.gpl'], 2, 'the output would replace a file that is read'),
                                    (['a.gpl', '--rpk', 'a.gpl'], 2, 'the output would replace a file that is read'),
                                    (['a.gpl', '--uses', 'A', '-o', 'x'], 2, '--uses goes with no file'),
                                    (['a.gpl', '--rpk', '/dev/full'], 3, 'No space left on device')):
            ended = self.call('cartridge', *words)
            self.assertEqual(ended.returncode, status, ended.stderr)
            self.assertIn(text, ended.stderr.decode())
        self.assertEqual((self.folder / 'a.gpl').read_bytes(), SOURCE)
        with open('/dev/full', 'wb') as full:
            ended = subprocess.run([TOOLS / 'cartridge', 'a.gpl'], cwd=self.folder, stdout=full, stderr=subprocess.PIPE)
        self.assertEqual(ended.returncode, 3)

    def test_a_program_that_lies_about_its_bytes_is_found(self):
        self.file('a.gpl', SOURCE)
        self.file('lies', b'#!/bin/sh\n"$REAL" "$@" | tr "\\001" "\\002"\n').chmod(0o755)
        ended = self.call('cartridge', 'a.gpl', '-o', 'out', '--program', './lies', REAL=os.environ['TI_BENCH'],
                          TI_DEBUG=os.environ.get('TI_DEBUG', str(TOP / 'crates/ti_debug/out/ti_debug')))
        self.assertEqual((ended.returncode, (self.folder / 'out').exists()), (1, False))
        self.assertIn(b'have not the same bytes', ended.stderr)
