"""Tests of tools/screen, over dumps that are made here."""
import struct
import unittest
import zlib

from calling import TOP, Calling
from lib import program


def rows(data, origin):
    """A part of a dump: a row of sixteen bytes a line, and `*` for those like the one before."""
    last, folded = None, False
    for at in range(0, len(data), 16):
        row = data[at:at + 16]
        if row != last:
            yield f'>{origin + at:04X} ' + ' '.join(f'{byte:02X}' for byte in row)
        elif not folded:
            yield '*'
        folded, last = row == last, row


def report(video, registers):
    """A report that shows this video memory."""
    shown = ' '.join(f'{byte:02X}' for byte in registers)
    lines = ['exit at >6000', 'pad', *rows(bytes(256), 0x8300), 'vdp', *rows(video, 0), f'regs {shown}', 'grom >0000']
    return '\n'.join(lines).encode() + b'\n'


def colours_of(picture):
    """The colours of the points of a PNG file, by lines."""
    chunks, at = {}, 8
    while at < len(picture):
        length, = struct.unpack('>I', picture[at:at + 4])
        kind, data = picture[at + 4:at + 8], picture[at + 8:at + 8 + length]
        assert struct.pack('>I', zlib.crc32(kind + data)) == picture[at + 8 + length:at + 12 + length]
        chunks[kind] = data
        at += 12 + length
    width, height = struct.unpack('>II', chunks[b'IHDR'][:8])
    lines, palette = zlib.decompress(chunks[b'IDAT']), chunks[b'PLTE']
    return [[tuple(palette[3 * point:3 * point + 3]) for point in lines[line * (width + 1) + 1:][:width]]
            for line in range(height)]


class Screen(Calling):
    def setUp(self):
        super().setUp()
        self.video = bytearray(0x4000)
        self.registers = [0, 0xE0, 1, 0x20, 1, 0, 0, 0x07]

    def test_rows_are_those_of_the_table_that_register_2_places(self):
        self.video[0x400 + 32:0x400 + 37] = b'HELLO'
        self.video[0x400 + 64] = 0x80
        ended = self.call('screen', given=report(self.video, self.registers))
        lines = ended.stdout.decode().splitlines()
        self.assertEqual((len(lines), lines[1], lines[2]), (24, 'HELLO' + 27 * '.', 32 * '.'))

    def test_text_mode_has_rows_of_40(self):
        self.registers[1] = 0xF0
        self.video[0x400 + 40:0x400 + 80] = bytes(range(0x30, 0x58))
        ended = self.call('screen', given=report(self.video, self.registers))
        self.assertEqual(ended.stdout.splitlines()[1], bytes(range(0x30, 0x58)))

    def test_a_picture_has_the_pattern_the_colours_and_the_backdrop(self):
        self.video[0x400] = 0x41
        self.video[0x800 + 8 * 0x41] = 0b10000001
        self.video[0x800 + 8] = 0
        self.video[0x800 + 0x41 // 8] = 0x60
        ended = self.call('screen', '-p', given=report(self.video, self.registers))
        lines = colours_of(ended.stdout)
        red, cyan = (212, 82, 77), (66, 235, 245)
        self.assertEqual((len(lines), len(lines[0])), (192, 256))
        self.assertEqual(lines[0][:8], [red, *[cyan] * 6, red])
        self.assertEqual(lines[1][:8], [cyan] * 8)

    def test_a_picture_that_is_off_is_all_backdrop(self):
        self.registers[1] = 0xA0
        self.call('screen', '-o', 'off.png', given=report(bytes([0xFF]) * 0x4000, self.registers))
        lines = colours_of((self.folder / 'off.png').read_bytes())
        self.assertEqual({point for line in lines for point in line}, {(66, 235, 245)})

    def test_it_is_said_if_no_patterns_are_loaded(self):
        said = (b'tools/screen: no patterns are loaded for the characters that are shown, so the picture has colours '
                b'alone\n')
        self.video[0x400:0x700] = b' ' * 767 + b'A'
        for place, byte, register, text in (
                (0, 0, 0xE0, said), (0, 0, 0xA0, b''), (0x800 + 8 * 0x41, 1, 0xE0, b''),
                (0x807 + 8 * 0x41, 1, 0xE0, b''),
                (0x807 + 8 * 0x20, 1, 0xE0, b''), (0x800 + 8 * 0x42, 1, 0xE0, said), (0x807 + 8 * 0x40, 1, 0xE0, said),
                (0x8 * 0x41, 1, 0xE0, said), (0x6FF, 0x20, 0xE0, b'')):
            video = bytearray(self.video)
            video[place] = byte or video[place]
            registers = [0, register, *self.registers[2:]]
            ended = self.call('screen', '-o', 'a.png', given=report(video, registers))
            self.assertEqual((ended.returncode, ended.stderr), (0, text), (place, register))
            self.assertEqual(self.call('screen', given=report(video, registers)).stderr, b'')

    def test_only_the_bits_of_a_register_that_place_a_table_count(self):
        """The registers may hold other bits, which the video processor does not use."""
        self.video[0x400:0x700] = b' ' * 768
        self.video[0x400 + 32:0x400 + 34] = b'HI'
        self.video[0x800 + 8 * 0x48] = 0xF0
        self.video[0x800 + 0x48 // 8] = 0x60
        outputs = []
        for registers in (self.registers, [0, 0xE0, 0xF1, 0x20, 0xF9, 0x80, 0xF8, 0xF7]):
            given = report(self.video, registers)
            outputs.append((self.call('screen', given=given).stdout, self.call('screen', '-p', given=given).stdout))
        self.assertEqual(outputs[0], outputs[1])
        self.assertEqual(colours_of(outputs[0][1])[8][:5], [(212, 82, 77)] * 4 + [(66, 235, 245)])

    def test_other_modes_have_no_picture(self):
        for register, byte, text in ((1, 0xF0, 'text mode'), (1, 0xE8, 'multicolor mode'), (0, 2, 'graphics mode II')):
            registers = [*self.registers]
            registers[register] = byte
            ended = self.call('screen', '-p', given=report(self.video, registers))
            self.assertEqual((ended.returncode, ended.stdout), (1, b''))
            self.assertIn(f'{text} is not drawn', ended.stderr.decode())

    def run_report(self, *changes):
        """A report of `gsteps` of steps with these changes, and the dump that they lead to."""
        steps = [f'{number:6} >6000 S00 D9F R7E ST @>8300,>01{change}\n' for number, change in enumerate(changes, 1)]
        return ''.join(steps).encode() + report(self.video, self.registers)

    def frames_of(self, data):
        """The milliseconds of each frame of an animated PNG file."""
        at, found = 8, []
        while at < len(data):
            length, = struct.unpack('>I', data[at:at + 4])
            if data[at + 4:at + 8] == b'fcTL':
                found.append(struct.unpack('>HH', data[at + 28:at + 32]))
            at += 12 + length
        return found

    def test_a_film_has_a_frame_for_each_new_screen(self):
        self.registers = [0, 0xE0, 0, 0, 0, 0, 0, 0x04]
        self.video[0:3] = b'\xF1\x00\xFF'
        given = self.run_report(' W1=E0 W7=07', '', ' V>0000=F1', ' >8300=01', ' V>0002=FF W7=04')
        ended = self.call('screen', '--film', 'film.png', '--frames', 'frames', given=given)
        self.assertEqual((ended.returncode, ended.stderr), (0, b''))
        names = sorted(path.name for path in (self.folder / 'frames').iterdir())
        self.assertEqual(names, ['step-000001.png', 'step-000003.png', 'step-000005.png'])
        film = (self.folder / 'film.png').read_bytes()
        self.assertEqual(self.frames_of(film), [(200, 1000), (200, 1000), (100, 1000)])
        self.call('screen', '-o', 'last.png', given=given)
        self.assertEqual((self.folder / 'frames/step-000005.png').read_bytes(), (self.folder / 'last.png').read_bytes())

    def test_a_film_looks_at_every_so_many_steps_and_the_last(self):
        self.registers = [0, 0xE0, 0, 0, 0, 0, 0, 0x09]
        given = self.run_report(' W1=E0', *(f' W7=0{number}' for number in range(2, 10)))
        self.call('screen', '--frames', 'frames', '--every', '4', given=given)
        names = sorted(path.name for path in (self.folder / 'frames').iterdir())
        self.assertEqual(names, ['step-000004.png', 'step-000008.png', 'step-000009.png'])

    def test_changes_that_do_not_lead_to_the_dump_are_no_film(self):
        self.registers = [0, 0xE0, 0, 0, 0, 0, 0, 0x09]
        ended = self.call('screen', '--film', 'film.png', given=self.run_report(' W1=E0', ' W7=08'))
        self.assertEqual((ended.returncode, (self.folder / 'film.png').exists()), (1, False))
        self.assertIn(b'the changes do not lead to the last screen', ended.stderr)

    def test_a_run_that_ends_in_another_mode_has_the_film_up_to_there(self):
        self.registers = [0, 0xF0, 0, 0, 0, 0, 0, 0x02]
        given = self.run_report(' W1=E0 W7=02', ' W1=F0')
        ended = self.call('screen', '--frames', 'frames', given=given)
        self.assertEqual((ended.returncode, ended.stderr),
                         (0, b'tools/screen: text mode, in which the run ends, is not drawn\n'))
        self.assertEqual([path.name for path in (self.folder / 'frames').iterdir()], ['step-000001.png'])
        ended = self.call('screen', '--frames', 'others', '--every', '2', given=given)
        self.assertEqual((ended.returncode, ended.stderr), (1, b'tools/screen: text mode is not drawn\n'))

    def test_a_folder_that_has_frames_is_rejected(self):
        self.registers = [0, 0xE0, 0, 0, 0, 0, 0, 0x07]
        old = self.file('frames/step-000009.png', b'old')
        ended = self.call('screen', '--frames', 'frames', '--film', 'film.png', given=self.run_report(' W1=E0 W7=07'))
        self.assertEqual((ended.returncode, ended.stderr),
                         (1, b'tools/screen: frames: the folder has frames already, as step-000009.png\n'))
        self.assertEqual(sorted(path.name for path in self.folder.rglob('*')), ['frames', 'step-000009.png'])
        self.assertEqual(old.read_bytes(), b'old')
        old.rename(self.folder / 'frames/other.png')
        self.assertEqual(self.call('screen', '--frames', 'frames', given=self.run_report(' W1=E0 W7=07')).returncode, 0)

    def test_a_report_of_another_command_is_no_film(self):
        source = (TOP / 'examples/picture/input').read_bytes()
        for words in (['run', '50'], ['trace', '50'], ['watch', '50', 'vdp:3FFF+1']):
            given = program.program().run(*words, given=source).out
            ended = self.call('screen', '--film', 'film.png', given=given)
            self.assertEqual((ended.returncode, ended.stderr), (
                1, b'tools/screen: this is no report of ti_debug gsteps, which --film and --frames read\n'))

    def test_a_run_of_no_step_has_a_film_of_one_frame(self):
        debugger = program.Program(program.other(program.program().path, 'ti_debug'))
        given = debugger.run('gsteps', '9', given=b'S EXIT\n END S\n').out
        self.assertEqual(self.call('screen', '--frames', 'frames', given=given).returncode, 0)
        self.assertEqual([path.name for path in (self.folder / 'frames').iterdir()], ['step-000000.png'])

    def test_words_that_do_not_go_together(self):
        for words in (['-p', '-o', 'a.png'], ['-p', '--film', 'a.png'], ['--every', '2'], ['-p', '--delay', '9'],
                      ['-o', ''], ['--film', 'a.png', '--every', '0']):
            ended = self.call('screen', *words, given=self.run_report(' W1=E0'))
            self.assertEqual((ended.returncode, ended.stdout), (2, b''), words)

    def test_without_a_dump_the_status_is_1(self):
        ended = self.call('screen', given=b'line 1: unknown operation\n')
        self.assertEqual((ended.returncode, ended.stderr), (1, b'tools/screen: no dump\n'))


if __name__ == '__main__':
    unittest.main()
