"""Tests of tools/lib."""
import contextlib
import io
import os
import pathlib
import shutil
import tempfile
import unittest
from unittest import mock

from calling import Calling
from lib import command, dump, elf, generated, packages, program, refusals, repository, sources

LISTED = """# a repository

# below: what all use
low:
middle staticlib: low arrayvec

# above
high: middle low  # and nothing else
"""


class Crates(unittest.TestCase):
    def setUp(self):
        kept = tempfile.TemporaryDirectory()
        self.addCleanup(kept.cleanup)
        self.top = pathlib.Path(kept.name)
        repository.write_text(self.top / 'crates.txt', LISTED)

    def test_each_crate_has_its_heading_and_what_it_uses(self):
        found = repository.crates(self.top)
        self.assertEqual(list(found), ['low', 'middle', 'high'])
        self.assertEqual(found['middle'], ('middle', 'below', ['low', 'arrayvec']))
        self.assertEqual(found['high'], ('high', 'above', ['middle', 'low']))

    def test_crates_below_are_those_that_are_used_and_no_libraries_of_the_toolchain(self):
        found = repository.crates(self.top)
        self.assertEqual(repository.crates_below(['middle'], found), ['low', 'middle'])
        self.assertEqual(repository.crates_below(['high'], found), ['low', 'middle', 'high'])

    def test_crates_of_this_repository_are_listed_after_those_that_they_use(self):
        found = repository.crates()
        places = {name: place for place, name in enumerate(found)}
        wrong = [(name, used) for name, crate in found.items() for used in crate.uses
                 if places.get(used, -1) > places[name]]
        self.assertEqual(wrong, [])
        self.assertEqual({path.parent.name for path in (repository.TOP / 'crates').glob('*/src')}, set(found))

    def test_a_file_is_written_once_and_only_named_by_a_check(self):
        path, said = self.top / 'made', io.StringIO()
        with contextlib.redirect_stdout(said), contextlib.redirect_stderr(said):
            self.assertEqual(generated.settle({path: 'é\n'}, check=True), 1)
            self.assertFalse(path.exists())
            self.assertEqual(generated.settle({path: 'é\n'}, check=False), 0)
            self.assertEqual(path.read_bytes(), b'\xc3\xa9\n')
            self.assertEqual(generated.settle({path: 'é\n'}, check=True), 0)
        self.assertEqual(said.getvalue().count(str(path)), 2)


class Dumps(unittest.TestCase):
    REGISTERS = 'regs 00 01 02 03 04 05 06 07'

    def report(self, cell, registers=REGISTERS):
        """A dump whose cells all have a byte."""
        rows = [f'>8300{f" {cell}" * 16}', '*', 'vdp', f'>0000{" 00" * 16}', '*', registers]
        return '\n'.join(['pad', *rows, 'grom >0000'])

    def test_the_last_dump_of_a_report_is_taken(self):
        found = dump.dump(f'{self.report("11")}\n{self.report("22")}\n')
        self.assertEqual((found.pad, found.vdp, found.registers), (b'\x22' * 256, bytes(0x4000), bytes(range(8))))

    def test_what_is_cut_off_is_no_dump(self):
        for report in ('', 'pad\nvdp', self.report('11', 'regs 00'), self.report('11').replace('pad', ''),
                       f'regs\n{self.report("11", "")}', f'pad\nvdp\n{self.REGISTERS}'):
            self.assertIsNone(dump.dump(report), report)


class Elf(unittest.TestCase):
    def test_a_file_that_is_no_program_is_named(self):
        for data in (b'', b'\x7fELF\x02\x01', bytes(64), b'\x7fELF\x02\x01' + bytes(58)):
            with self.assertRaisesRegex(command.Stopped, 'x is no program for Linux on x86-64'):
                elf.Program(data, 'x')


class Sources(Calling):
    def test_the_names_that_lines_copy_are_as_they_are_written_and_without_a_device(self):
        source = b' COPY "A"\n* COPY "B"\nL COPY \'DSK1.C\' more\n copy "d"\n COPY "E\'\n COPIES "F"\nCOPY "G"\n'
        self.assertEqual(sources.names_copied(source), {'A', 'DSK1.C', 'C', 'd'})

    def test_the_files_of_a_source_are_those_that_can_be_copied(self):
        for number in range(1, 7):
            self.file(f'part{number}', f' COPY "part{number + 1}"\n COPY "part1"\n COPY "none"\n'.encode())
        self.file('also', b'')
        path = str(self.folder / 'main')
        self.assertEqual(sources.copied(path, b' COPY "part1"\n COPY "also"\n'), [
            str(self.folder / name) for name in ('also', 'part1', 'part2', 'part3', 'part4')])

    def test_the_kinds_of_source_have_their_endings(self):
        self.assertEqual(sources.endings('gasm'), {'.gpl'})
        self.assertEqual(sources.endings('asm'), {'.a', '.asm', '.src', '.a99'})


class Packages(Calling):
    def found(self, ci, user):
        """What is found of a program that a package has, and the calls of apt-get."""
        calls = self.folder / 'calls'
        calls.unlink(missing_ok=True)
        apt = self.file('bin/apt-get', b'#!/bin/sh\necho "$@" >>"${0%/*}/../calls"\n[ "$1" = update ] || '
                                       b'for it; do :; done; cp "$0" "${0%/*}/wanted"\n')
        apt.chmod(0o755)
        with mock.patch.dict(os.environ, {'PATH': f'{self.folder}/bin:/usr/bin:/bin', 'CI': ci}), \
                mock.patch('os.geteuid', return_value=user):
            path = packages.found(['other-than-wanted', 'wanted'], ['one', 'two'])
        (self.folder / 'bin/wanted').unlink(missing_ok=True)
        return path, calls.read_text().splitlines() if calls.exists() else []

    def test_they_are_installed_only_by_root_with_ci(self):
        for ci, user in (('', 0), ('1', 1000), ('', 1000)):
            self.assertEqual(self.found(ci, user), (None, []))
        self.assertEqual(self.found('1', 0), (f'{self.folder}/bin/wanted', [
            'update', 'install -y --no-install-recommends one two']))

    def test_a_program_that_is_there_is_not_installed(self):
        with mock.patch.dict(os.environ, {'CI': '1'}):
            self.assertEqual(packages.found(['nowhere', 'sh'], ['one']), shutil.which('sh'))


class Refusals(unittest.TestCase):
    def test_the_name_of_a_file_makes_no_line_and_moves_no_cursor(self):
        found = list(refusals.explanation('a\x1b[2J\nb.gpl', 7, 'bad\x07 operand', 'x\x1b', 'no\x9b'))
        self.assertEqual(found, [b'a\\x1b[2J\\x0ab.gpl:7: bad\\x07 operand', b'    x\\x1b',
                                 b'a\\x1b[2J\\x0ab.gpl:7: note: no\\x9b'])
        ended = program.Run(5, b'', b'')
        self.assertEqual(list(refusals.refusal('a\n', b'', ended)), [b'a\\x0a: out of memory'])

    def test_a_name_that_is_no_utf_8_stays_as_it_is(self):
        for name in ('é'.encode('utf-8'), b'\xe9', 'À'.encode('utf-8')):
            self.assertEqual(refusals.file_shown(name), name)

    def test_standard_input_has_the_name_that_compilers_give_it(self):
        self.assertEqual(refusals.refusal('-', b'', program.Run(1, b'', b'too small\n')), [b'<stdin>: too small'])


if __name__ == '__main__':
    unittest.main()
