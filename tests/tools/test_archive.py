"""Tests of tools/archive."""
import pathlib
import subprocess
import time
import unittest

from calling import TOOLS, Calling, is_running

IMAGE = bytes.fromhex('AA 00 BE 00 05 0B')
MAIN = b' REF TABLE\nS DATA TABLE\n END S\n'


class Archive(Calling):
    def rows(self, *words, **environment):
        ended = self.call('archive', *words, self.folder, **environment)
        return ended.returncode, ended.stdout.decode().splitlines()

    def test_each_kind_of_file_has_its_result(self):
        self.file('image.Bin', IMAGE)
        self.file('source.gpl', b'S ST @>8300,5\n EXIT\n END S\n')
        self.file('alone.a', b'S JMP $\n END S\n')
        self.file('main.asm', MAIN)
        self.file('bad.gpl', b' FOO\n')
        self.file('README', b'')
        status, rows = self.rows()
        self.assertEqual(status, 0)
        self.assertEqual(rows, ['alone.a     linked     entry >A000',
                                'bad.gpl     refused    line 1: unknown operation',
                                'image.Bin   same       6 bytes',
                                'main.asm    assembled  unresolved TABLE',
                                'source.gpl  same       4 bytes',
                                '5 files: 2 same, 1 linked, 1 assembled, 1 refused, 0 different; passed over: 1'])

    def test_a_file_that_another_source_copies_is_no_refused_source(self):
        self.file('main.a', b' COPY "part.a"\n END\n')
        self.file('part.a', b' DATA MISSNG\n')
        _, rows = self.rows()
        self.assertIn('part.a  copied     by main.a', rows)

    def test_a_source_of_several_files_is_expanded_and_its_parts_are_copied(self):
        self.file('part.gpl', b'.l     LOAD 5\n')
        self.file('main.gpl', b'LOAD   MACRO N\n       ST   @>8300,\\N\n       ENDM\nS      EQU  $\n'
                              b'       COPY "part.gpl"\n       EXIT\n       END  S\n')
        rows = ['main.gpl  same       4 bytes', 'part.gpl  copied     by main.gpl',
                '2 files: 1 same, 1 copied, 0 different']
        self.assertEqual(self.rows(), (0, rows))

    def test_of_an_expanded_source_the_file_and_the_line_are_named(self):
        for part, said in ((b'*\n FOO\n', 'part.gpl:2: unknown operation'),
                           (b'*\n B .x\n', 'part.gpl:2: unknown name: there is no .x'),
                           (b'.a EQU 1\n B .a\n B FOO\n', 'part.gpl:3: unknown name')):
            self.file('part.gpl', part)
            self.file('main.gpl', b'S      EQU  $\n COPY "part.gpl"\n EXIT\n END S\n')
            self.assertEqual(self.rows()[1][:2], [f'main.gpl  refused    {said}', 'part.gpl  copied     by main.gpl'])
        large = b' COPY "part.gpl"\n' + b'*\n' * (1 << 19)
        self.file('main.gpl', large)
        self.assertEqual(self.rows()[1][0], 'main.gpl  refused    too large')

    def test_folders_in_folders_are_taken_by_r_alone(self):
        self.file('deep down/image.bin', IMAGE)
        self.assertEqual(self.rows()[1], ['0 files: 0 same, 0 different'])
        self.assertEqual(self.rows('-r')[1][0], 'deep down/image.bin  same       6 bytes')

    def test_tab_separated_lines_have_a_head_and_no_sum(self):
        self.file('image.bin', IMAGE)
        self.assertEqual(self.rows('--tsv')[1], ['name\tresult\tmore\tlabel', 'image.bin\tsame\t6 bytes\t'])

    def test_images_are_labelled_too_if_that_is_asked_for(self):
        self.file('image.bin', IMAGE)
        self.file('alone.a', b'S JMP $\n END S\n')
        self.assertEqual(self.rows('--label')[1][:2], ['alone.a    linked     entry >A000',
                                                       'image.bin  same       6 bytes      labelled and the same'])

    def test_names_are_shown_in_any_locale(self):
        self.file('pr\u00fcfung.bin', IMAGE)
        self.assertEqual(self.rows(LC_ALL='C')[0], 0)
        self.assertEqual(self.rows(LC_ALL='POSIX', PYTHONUTF8='0', PYTHONCOERCECLOCALE='0')[0], 0)

    def test_a_file_that_cannot_be_read_has_failed(self):
        # its first byte is no one's memory
        (self.folder / 'broken.a99').symlink_to('/proc/self/mem')
        self.file('image.bin', IMAGE)
        status, rows = self.rows()
        self.assertEqual((status, rows[0]), (1, 'broken.a99  failed     Input/output error'))
        self.assertEqual(rows[1], 'image.bin   same       6 bytes')

    def test_a_name_cannot_make_a_row_or_move_a_cursor(self):
        self.file('a\tb\nc\\.bin', IMAGE)
        self.file('b\x1b[2J\x9b.bin', IMAGE)
        self.assertEqual(self.rows('--tsv')[1][1:], ['a\\tb\\nc\\\\.bin\tsame\t6 bytes\t',
                                                     'b\\x1b[2J\\xc2\\x9b.bin\tsame\t6 bytes\t'])

    def test_only_a_refused_source_is_called_copied(self):
        self.file('a.asm', b' COPY "b.a"\n END\n')
        self.file('b.a', b'S JMP $\n END S\n')
        self.assertIn('b.a    linked     entry >A000', self.rows()[1])

    def test_of_a_large_file_no_more_is_read_than_the_program_reads(self):
        with open(self.folder / 'disk.bin', 'wb') as file:
            file.truncate(1 << 40)
        self.assertEqual(self.rows()[1][0], 'disk.bin  refused    too large')

    def fake(self, text):
        """A program that knows its input as $given, and lists it as it is."""
        path = self.file('fake', b'#!/bin/sh\ngiven=$(cat)\n' + text + b'\nprintf %s "$given"\n')
        path.chmod(0o755)
        return path

    def test_each_row_is_written_as_it_comes(self):
        for name in ('a', 'b', 'c'):
            self.file(f'images/{name}.bin', name.encode())
        fake = self.fake(b'[ "$given" = a ] || while ! [ -e go ] && ! [ -e ../go ]; do sleep 0.05; done')
        with subprocess.Popen([TOOLS / 'archive', '--tsv', '--program', fake, 'images'], cwd=self.folder,
                              stdout=subprocess.PIPE) as running:
            rows = [running.stdout.readline() for _ in range(2)]
            self.assertEqual(rows, [b'name\tresult\tmore\tlabel\n', b'a.bin\tsame\t1 bytes\t\n'])
            self.assertIsNone(running.poll())
            self.file('go', b'')
            self.assertEqual(running.stdout.read(), b'b.bin\tsame\t1 bytes\t\nc.bin\tsame\t1 bytes\t\n')

    def test_a_process_that_is_ended_costs_no_row_but_that_of_its_file(self):
        for number in range(6):
            self.file(f'images/{number}.bin', b'KILL' if number in (1, 4) else b'x')
        fake = self.fake(b'[ "$given" != KILL ] || kill -9 "$PPID"')
        for jobs in ('1', '3'):
            ended = self.call('archive', '-j', jobs, '--program', fake, 'images')
            self.assertEqual((ended.returncode, ended.stderr), (1, b''))
            killed = 'failed     the process that tried it was ended'
            self.assertEqual(ended.stdout.decode().splitlines(), [
                f'{number}.bin  {killed if number in (1, 4) else "same       1 bytes"}' for number in range(6)]
                + ['6 files: 4 same, 0 different, 2 failed'])

    def test_a_folder_that_vanishes_costs_no_other_row(self):
        for name in ('a/1.bin', 'b/2.bin', 'b/3.bin'):
            self.file(f'images/{name}', name.encode())
        fake = self.fake(b'[ "$given" != a/1.bin ] || rm -rf ../b')
        rows = self.call('archive', '-r', '-j', '1', '--program', fake, 'images').stdout.decode().splitlines()
        self.assertEqual(rows[:3], ['a/1.bin  same       7 bytes', 'b/2.bin  failed     No such file or directory',
                                    'b/3.bin  failed     No such file or directory'])
        self.assertEqual(self.call('archive', '-r', '--program', self.fake(b'rm -rf ../a'), 'images').stdout,
                         b'a/1.bin  failed     images/a: No such file or directory\n1 file: 0 same, 0 different, '
                         b'1 failed\n')

    def test_no_process_is_left_whatever_ends_it(self):
        for number in range(4):
            self.file(f'images/{number}.bin', b'x')
        fake = self.fake(b'touch "$0.begun"; exec sleep 30')
        with subprocess.Popen([TOOLS / 'archive', '-j', '3', '--program', fake, 'images'], cwd=self.folder) as running:
            while not (self.folder / 'fake.begun').exists():
                time.sleep(0.05)
            children = pathlib.Path(f'/proc/{running.pid}/task/{running.pid}/children').read_text().split()
            running.kill()
        self.assertGreater(len(children), 0)
        latest = time.monotonic() + 20
        while any(map(is_running, children)) and time.monotonic() < latest:
            time.sleep(0.1)
        self.assertEqual([child for child in children if is_running(child)], [])

    def test_one_file_is_counted_as_one(self):
        self.file('image.bin', IMAGE)
        self.assertEqual(self.rows()[1][-1], '1 file: 1 same, 0 different')

    def test_jobs_are_from_1_to_64(self):
        self.file('image.bin', IMAGE)
        for jobs in ('0', '-1', '65', 'x', '1000000000'):
            self.assertEqual(self.rows(f'--jobs={jobs}'), (2, []))
        for jobs in ('1', '64'):
            self.assertEqual(self.rows('-j', jobs)[0], 0)

    def test_no_more_processes_are_begun_than_there_are_files(self):
        # the children of the process whose child runs this program
        script = self.file('counting', b'#!/bin/sh\nread -r number name state script others </proc/$PPID/stat\n'
                                       b'read -r children </proc/$script/task/$script/children\n'
                                       b'echo "$children" >>"$0.list"\n')
        script.chmod(0o755)
        for number in range(2):
            self.file(f'images/{number}.bin', IMAGE)
        self.call('archive', '-j', '64', '--program', script, 'images')
        for line in (self.folder / 'counting.list').read_text().splitlines():
            self.assertIn(len(line.split()), (1, 2))

    def test_a_file_is_no_folder(self):
        self.file('image.bin', IMAGE)
        for name, text in (('image.bin', b'image.bin is no folder'), ('none', b'no folder none')):
            ended = self.call('archive', name)
            self.assertEqual((ended.returncode, ended.stderr), (3, b'tools/archive: ' + text + b'\n'))

    def test_a_file_that_is_copied_with_its_device_is_one(self):
        self.file('main.a', b' COPY "DSK1.part.a"\n END\n')
        self.file('part.a', b' DATA MISSNG\n')
        self.assertIn('part.a  copied     by main.a', self.rows()[1])

    def test_a_wrong_program_makes_files_different_and_the_status_1(self):
        liar = self.file('liar', b'#!/bin/sh\necho " END"\n')
        liar.chmod(0o755)
        self.file('images/image.bin', IMAGE)
        ended = self.call('archive', '--program', liar, 'images')
        self.assertEqual((ended.returncode, ended.stdout.splitlines()[0]), (1, b'image.bin  different  6 bytes'))


if __name__ == '__main__':
    unittest.main()
