"""Tests of lib.output: where the bytes of -o come, what is left of an old file, and what stops it."""
import os
import signal
import stat
import subprocess
import unittest
from unittest import mock

from calling import TOOLS, Calling
from lib import command, output

NOBODY = 65534
LISTING = b'entry >A000\n>A000 C060 A00E\n'
BYTES = bytes.fromhex('C060A00E')


class Outputs(Calling):
    def shell(self, line):
        """How a line of the shell ends in which `$0` is a tool, with words that name no file."""
        ended = subprocess.run(['bash', '-c', line, TOOLS / 'raw'], input=LISTING, cwd=self.folder, capture_output=True)
        return ended.returncode, ended.stdout, ended.stderr

    def apart(self, work, limit=None):
        """The same for a process that may not do all."""
        return super().apart(work, limit, NOBODY)

    def give_to_nobody(self, *paths):
        """Makes these paths the property of the process apart."""
        if os.geteuid() == 0:
            for path in [self.folder, *paths]:
                os.chown(path, NOBODY, NOBODY)

    def test_a_hyphen_is_standard_output_and_an_open_file_is_written_on(self):
        for line in ('"$0" -o -', '"$0" -o /dev/stdout', '"$0" -o /dev/fd/1', '"$0" -o /proc/self/fd/1',
                     'ln -sf /dev/stdout link; "$0" -o link', '"$0" -o /dev/fd/5 5>&1 >/dev/null',
                     'exec >log; echo head; "$0" -o /dev/stdout; echo end; cat log >&2'):
            wanted = (0, b'', b'head\n' + BYTES + b'end\n') if 'log' in line else (0, BYTES, b'')
            self.assertEqual(self.shell(line), wanted, line)
        self.assertEqual(sorted(path.name for path in self.folder.iterdir()), ['link', 'log'])

    def test_a_log_is_not_an_input_that_the_output_would_replace(self):
        self.file('log', LISTING)
        self.assertEqual(self.shell('"$0" -o /dev/stdout <log >>log'), (0, b'', b''))
        self.assertEqual((self.folder / 'log').read_bytes(), LISTING + BYTES)

    def test_a_reader_that_has_gone_ends_it_quietly(self):
        for name in ('-', '/dev/stdout', '/dev/fd/5'):
            line = f'(sleep 0.2; "$0" -o {name} 5>&1; echo $? >status) | true; cat status'
            self.assertEqual(self.shell(line), (0, b'141\n', b''), name)

    def test_a_pipe_with_a_name_is_written_to_once(self):
        line = 'mkfifo pipe; cat pipe & "$0" -o pipe; wait'
        self.assertEqual(self.shell(line), (0, BYTES, b''))
        self.assertEqual(os.listdir(self.folder), ['pipe'])

    def test_an_old_file_keeps_its_mode_and_a_new_one_has_that_of_the_mask(self):
        old = self.file('old', b'x' * 100)
        old.chmod(0o640)
        output.write(old, b'new')
        output.write(self.folder / 'made', b'new')
        mask = os.umask(0)
        os.umask(mask)
        self.assertEqual((old.read_bytes(), stat.S_IMODE(old.stat().st_mode)), (b'new', 0o640))
        self.assertEqual(stat.S_IMODE((self.folder / 'made').stat().st_mode), 0o666 & ~mask)

    def test_a_link_leads_to_the_file_and_stays(self):
        old, link = self.file('old', b'x' * 100), self.folder / 'link'
        link.symlink_to('old')
        output.write(link, b'new')
        self.assertTrue(link.is_symlink())
        self.assertEqual(old.read_bytes(), b'new')

    def test_all_names_of_a_file_have_the_new_bytes(self):
        old = self.file('old', b'x' * 100)
        os.link(old, self.folder / 'other')
        output.write(old, b'new')
        self.assertEqual((self.folder / 'other').read_bytes(), b'new')

    def test_a_file_that_may_not_be_written_to_is_left(self):
        old = self.file('old', b'old')
        old.chmod(0o444)
        self.give_to_nobody(old)
        self.assertEqual(self.apart(lambda: output.write(old, b'new')), f'{old}: Permission denied')
        self.assertEqual((old.read_bytes(), os.listdir(self.folder)), (b'old', ['old']))

    def test_a_file_in_a_folder_that_takes_no_other_is_written_to(self):
        old = self.file('old', b'x' * 100)
        self.give_to_nobody(old)
        self.folder.chmod(0o555)
        self.addCleanup(self.folder.chmod, 0o755)
        self.assertEqual(self.apart(lambda: output.write(old, b'new')), '')
        self.assertEqual(old.read_bytes(), b'new')
        made = self.folder / 'made'
        self.assertEqual(self.apart(lambda: output.write(made, b'new')), f'{made}: Permission denied')

    def test_a_file_of_another_owner_keeps_it(self):
        if os.geteuid():
            self.skipTest('only root can give a file away')
        old = self.file('old', b'x' * 100)
        os.chown(old, NOBODY, NOBODY)
        output.write(old, b'new')
        self.assertEqual((old.read_bytes(), old.stat().st_uid), (b'new', NOBODY))

    def test_a_full_disk_leaves_the_old_file(self):
        old = self.file('old', b'old')
        self.give_to_nobody(old)
        self.assertEqual(self.apart(lambda: output.write(old, b'x' * 100), limit=50), f'{old}: File too large')
        self.assertEqual((old.read_bytes(), os.listdir(self.folder)), (b'old', ['old']))

    def test_no_file_stays_open(self):
        old = self.file('old', b'x' * 100)
        os.link(old, self.folder / 'other')
        before = os.listdir('/proc/self/fd')
        for name in ('old', 'made'):
            output.write(self.folder / name, b'new')
            self.assertEqual(os.listdir('/proc/self/fd'), before, name)

    def test_a_signal_once_the_file_has_its_name_is_heard(self):
        replace = os.replace

        def heard(*given):
            replace(*given)
            raise command.Ended(signal.SIGTERM)

        with mock.patch('os.replace', heard), self.assertRaises(command.Ended):
            output.write(self.folder / 'made', b'new')
        self.assertEqual(os.listdir(self.folder), ['made'])

    def names(self):
        """The names of all that is in the folder."""
        return sorted(str(path.relative_to(self.folder)) for path in self.folder.rglob('*'))

    def test_all_files_of_a_folder_are_written_with_the_mode_of_the_mask(self):
        mask = os.umask(0o027)
        self.addCleanup(os.umask, mask)
        output.write_files(self.folder / 'new/films', [('a', b'1'), ('b', b'2')])
        self.assertEqual(self.names(), ['new', 'new/films', 'new/films/a', 'new/films/b'])
        self.assertEqual((self.folder / 'new/films/b').read_bytes(), b'2')
        self.assertEqual(stat.S_IMODE((self.folder / 'new/films/a').stat().st_mode), 0o640)

    def test_a_signal_leaves_none_of_the_files_of_a_folder(self):
        def cut():
            yield 'a', b'1'
            self.assertEqual(len(self.names()), len(before) + 2 + (not before))
            raise command.Ended(signal.SIGTERM)

        rename, renamed = os.rename, []

        def heard(*given):
            rename(*given)
            renamed.append(given)
            if len(renamed) == 2:
                raise command.Ended(signal.SIGINT)

        whole = [(name, b'1') for name in 'abc']
        for before in [], ['films', 'films/other']:
            for name in before[1:]:
                self.file(name, b'old')
            with self.assertRaises(command.Ended):
                output.write_files(self.folder / 'films', cut())
            self.assertEqual(self.names(), before)
            renamed.clear()
            with mock.patch('os.rename', heard), self.assertRaises(command.Ended):
                output.write_files(self.folder / 'films', whole)
            self.assertEqual((self.names(), len(renamed)), (before, 2))

    def test_a_folder_that_takes_no_files_is_named(self):
        self.give_to_nobody()
        films = self.folder / 'films'
        self.assertEqual(self.apart(lambda: output.write_files(films, [('a', b'1'), ('b', b'x' * 100)]), limit=50),
                         f'{films}: File too large')
        self.assertEqual(self.names(), [])
        self.folder.chmod(0o555)
        self.addCleanup(self.folder.chmod, 0o755)
        self.assertEqual(self.apart(lambda: output.write_files(films, [])), f'{films}: Permission denied')

    def test_what_comes_by_standard_input_is_no_output(self):
        path = self.file('a', b'entry >A000\n>A000 10FF\n')
        for words in (['raw', '-o', './a'], ['screen', '-o', './a'], ['screen', '--film', './a'],
                      ['label', '-o', './a', 'gdis', '6000'], ['assemble', '--gpl', '-o', './a', '-']):
            with open(path, 'rb') as given:
                ended = subprocess.run([TOOLS / words[0], *words[1:]], stdin=given, capture_output=True,
                                       cwd=self.folder)
            self.assertEqual((ended.returncode, ended.stderr.partition(b': ')[2]),
                             (2, b'./a: the output would replace a file that is read\n'), words)
        self.assertEqual(path.read_bytes(), b'entry >A000\n>A000 10FF\n')


if __name__ == '__main__':
    unittest.main()
