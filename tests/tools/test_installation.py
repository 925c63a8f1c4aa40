"""Tests of lib.installation, lib.distribution and lib.elf. tests/install tries whole installations."""
import contextlib
import errno
import os
import pathlib
import re
import shutil
import subprocess
import sys
from unittest import mock

from calling import TOP, Calling
from lib import command, distribution, documents, elf, target
from lib.distribution import File, Link
from lib.installation import LIST, Installation
from lib.program import other

FIRST = {'lib/ti_bench/tools/a': File(b'one', True), 'lib/ti_bench/lib/m.py': File(b'm = 1\n'),
         'bin/a': Link('lib/ti_bench/tools/a')}
SECOND = {'lib/ti_bench/tools/b': File(b'two'), 'bin/a': Link('lib/ti_bench/tools/b')}


class Failing:
    """Calls of the system that make or remove something: the one with a number fails, as on a full disk."""

    CALLS = ('open', 'write', 'replace', 'mkdir', 'symlink', 'fchmod', 'chmod', 'unlink')

    def __init__(self, number):
        self.left, self.failed, self.kept = number, False, contextlib.ExitStack()

    def counted(self, call):
        def made(*given, **more):
            if call.__name__ == 'open' and not given[1] & os.O_CREAT:
                return call(*given, **more)
            self.left -= 1
            if self.left == -1:
                self.failed = True
                raise OSError(errno.ENOSPC, os.strerror(errno.ENOSPC), *(
                    given[:1] if call.__name__ in ('mkdir', 'unlink') else ()))
            return call(*given, **more)
        return made

    def __enter__(self):
        for name in self.CALLS:
            self.kept.enter_context(mock.patch(f'os.{name}', self.counted(getattr(os, name))))
        return self

    def __exit__(self, *how):
        self.kept.close()


class Installations(Calling):
    def setUp(self):
        super().setUp()
        self.prefix = self.folder / 'a/prefix'

    def files(self):
        """All files and links of the folder of the test."""
        return sorted(str(path.relative_to(self.folder)) for path in self.folder.rglob('*')
                      if path.is_symlink() or path.is_file())

    def test_files_are_put_replaced_and_removed_with_the_folders_made_for_them(self):
        self.assertEqual(Installation(self.prefix).put(FIRST), [])
        self.assertEqual((self.prefix / 'bin/a').read_bytes(), b'one')
        self.assertEqual((self.prefix / 'lib/ti_bench/tools/a').stat().st_mode & 0o777, 0o755)
        self.file('a/prefix/lib/ti_bench/lib/__pycache__/m.cpython-39.pyc', b'')
        self.assertEqual(Installation(self.prefix).put(SECOND), [])
        self.assertEqual(self.files(), [f'a/prefix/{path}' for path in sorted([LIST, *SECOND])])
        self.assertFalse((self.prefix / 'lib/ti_bench/lib').exists())
        self.assertEqual(Installation(self.prefix).remove(), [])
        self.assertEqual(list(self.folder.iterdir()), [])

    def test_files_of_others_stop_it_before_anything_is_written(self):
        for name in ('a/prefix/bin/a', 'a/prefix/lib', 'a', 'a/prefix/lib/ti_bench/tools/a/other'):
            with self.subTest(name=name):
                other = self.file(name, b'of another')
                with self.assertRaisesRegex(command.Stopped, re.escape(name.removesuffix('/other'))):
                    Installation(self.prefix).put(FIRST)
                self.assertEqual(self.files(), [name])
                other.unlink()
                shutil.rmtree(self.folder / 'a', ignore_errors=True)

    def test_what_has_changed_is_neither_replaced_nor_removed(self):
        Installation(self.prefix).put(FIRST)
        self.file('a/prefix/lib/ti_bench/lib/m.py', b'm = 2\n')
        self.assertEqual(Installation(self.prefix).put(SECOND), ['lib/ti_bench/lib/m.py'])
        (self.prefix / 'bin/a').unlink()
        (self.prefix / 'bin/a').symlink_to('elsewhere')
        with self.assertRaisesRegex(command.Stopped, 'bin/a'):
            Installation(self.prefix).put(FIRST)
        self.assertEqual(Installation(self.prefix).remove(), ['bin/a'])
        self.assertEqual(self.files(), ['a/prefix/bin/a', f'a/prefix/{LIST}', 'a/prefix/lib/ti_bench/lib/m.py'])

    def test_one_that_was_stopped_is_made_whole_by_the_next(self):
        class Stopping(Installation):
            """An installation that is stopped at its second file."""
            def write(self, path, file):
                if path == 'bin/a':
                    raise KeyboardInterrupt
                super().write(path, file)

        Installation(self.prefix).put(FIRST)
        with self.assertRaises(KeyboardInterrupt):
            Stopping(self.prefix).put(SECOND)
        self.assertEqual(Installation(self.prefix).put(SECOND), [])
        Installation(self.prefix).remove()
        self.assertEqual(list(self.folder.iterdir()), [])

    def test_one_whose_writing_fails_is_made_whole_by_the_next(self):
        ways = {'install': (None, SECOND), 'upgrade': (FIRST, SECOND), 'remove': (FIRST, None)}
        for way, (before, after) in ways.items():
            number = 0
            while self.fails_at(number, before, after):
                number += 1
            self.assertGreater(number, len(FIRST), way)

    def fails_at(self, number, before, after):
        """Fails the call of the system with a number, in putting files in the place of those before, or in removing
        them. The error names a place of the installation, and the next call makes it whole, as does one that removes
        it. False if there are fewer calls."""
        def work():
            return Installation(self.prefix).put(after) if after else Installation(self.prefix).remove()

        for mends in (work, lambda: Installation(self.prefix).list.is_file() and Installation(self.prefix).remove()):
            if before:
                Installation(self.prefix).put(before)
            with Failing(number) as failing:
                try:
                    work()
                    self.assertFalse(failing.failed)
                except (OSError, command.Stopped) as error:
                    self.assertRegex(str(getattr(error, 'filename', None) or error), f'^{self.prefix.parent}')
            if failing.failed:
                mends()
            if after and (mends is work or not failing.failed):
                self.assertEqual(self.files(), [f'a/prefix/{path}' for path in sorted([LIST, *after])])
                Installation(self.prefix).remove()
            self.assertEqual(list(self.folder.iterdir()), [], number)
        return failing.failed

    def test_a_disk_that_is_full_at_any_byte_is_no_end_of_an_installation(self):
        large = {**SECOND, 'lib/ti_bench/large': File(b'x' * 2000)}
        failed = 0
        for before, after in ((None, large), (FIRST, large), (FIRST, SECOND)):
            for limit in range(0, 2100, 60):
                if before:
                    Installation(self.prefix).put(before)
                error = self.apart(lambda: Installation(self.prefix).put(after), limit)
                if error:
                    self.assertRegex(error, f'^{self.prefix}/.*: File too large$')
                    failed += 1
                self.assertEqual(Installation(self.prefix).put(after), [])
                self.assertEqual(self.files(), [f'a/prefix/{path}' for path in sorted([LIST, *after])])
                self.assertEqual(Installation(self.prefix).remove(), [])
                self.assertEqual(list(self.folder.iterdir()), [])
        self.assertGreater(failed, 70)

    def test_a_list_is_kept_while_files_are_left(self):
        Installation(self.prefix).put(FIRST)
        changed = self.file('a/prefix/lib/ti_bench/lib/m.py', b'm = 2\n')
        for _ in range(2):
            self.assertEqual(Installation(self.prefix).remove(), ['lib/ti_bench/lib/m.py'])
            self.assertEqual(self.files(), [f'a/prefix/{path}' for path in (LIST, 'lib/ti_bench/lib/m.py')])
        changed.unlink()
        self.assertEqual(Installation(self.prefix).remove(), [])
        self.assertEqual(list(self.folder.iterdir()), [])

    def test_a_list_without_its_end_is_damaged(self):
        Installation(self.prefix).put(FIRST)
        path = self.prefix / LIST
        whole = path.read_bytes()
        for cut in [0, 1, *range(8, len(whole), 7), len(whole) - 1]:
            path.write_bytes(whole[:cut])
            with self.assertRaisesRegex(command.Stopped, f'the list {path} is damaged'):
                Installation(self.prefix)

    def test_the_list_of_version_1_1_is_one(self):
        Installation(self.prefix).put(FIRST)
        path = self.prefix / LIST
        rows = path.read_text().splitlines(keepends=True)
        self.assertEqual((rows[0], rows[-1]), ('begin\t\t\n', 'end\t\t\n'))
        path.write_text(''.join(rows[1:-1]))
        self.assertEqual(Installation(self.prefix).put(SECOND), [])
        Installation(self.prefix).remove()
        self.assertEqual(list(self.folder.iterdir()), [])

    def test_a_link_leads_right_from_a_folder_that_is_one_itself(self):
        (self.folder / 'elsewhere/deep').mkdir(parents=True)
        self.prefix.mkdir(parents=True)
        (self.prefix / 'bin').symlink_to(self.folder / 'elsewhere/deep')
        Installation(self.prefix).put(FIRST)
        self.assertEqual((self.folder / 'elsewhere/deep/a').read_bytes(), b'one')
        Installation(self.prefix).remove()
        self.assertTrue((self.prefix / 'bin').is_symlink())

    def test_a_list_that_is_none_or_leads_outside_is_refused(self):
        for text in (b'something else\n', b'file\t00\t../outside\n', b'file\t00\t/etc/passwd\n'):
            self.file(f'a/prefix/{LIST}', text)
            with self.assertRaises(command.Stopped):
                Installation(self.prefix)

    def test_nothing_to_remove_is_said(self):
        with self.assertRaisesRegex(command.Stopped, 'nothing was installed'):
            Installation(self.prefix).remove()


class HandedOut(Calling):
    def test_each_tool_has_a_command_and_all_that_documents_name_is_there(self):
        found = distribution.files(os.environ['TI_BENCH'])
        placed = distribution.installed(found)
        commands = [*distribution.PROGRAMS, *(f'ti_bench-{tool}' for tool in distribution.TOOLS)]
        for name in commands:
            self.assertTrue(placed[placed[f'bin/{name}'].target].executable)
        listed = re.search(r'^## Documents\n(.*?)\n\n', (TOP / 'README.md').read_text('utf-8'), re.M | re.S)
        links = re.findall(r'\]\(([^)]+)\)', listed[1] if listed else '')
        self.assertEqual([link for link in links if link not in found], [])

    def test_all_that_an_installation_has_runs_there(self):
        placed = distribution.installed(distribution.files(os.environ['TI_BENCH']))
        for path, file in placed.items():
            if isinstance(file, File):
                self.file(path, file.data).chmod(0o755 if file.executable else 0o644)
        tools = self.folder / 'lib/ti_bench/tools'
        scripts = {path for path, file in placed.items() if isinstance(file, File) and file.executable}
        self.assertEqual(scripts, {f'lib/ti_bench/{name}' for name in distribution.PROGRAMS}
                         | {f'lib/ti_bench/tools/{name}' for name in (*distribution.TOOLS, *distribution.SCRIPTS)})
        for name in (*distribution.TOOLS, 'install'):
            ended = subprocess.run([tools / name, '--help'], capture_output=True)
            self.assertEqual((ended.returncode, ended.stderr), (0, b''), name)
        modules = ['.'.join(path.relative_to(tools).with_suffix('').parts) for path in tools.rglob('*.py')]
        self.assertIn('lib.command', modules)
        ended = subprocess.run([sys.executable, '-c', ''.join(f'import {name}\n' for name in modules)],
                               cwd=tools, capture_output=True)
        self.assertEqual(ended.stderr, b'')
        self.assertEqual([path for path in self.folder.rglob('*.py') if tools not in path.parents], [])
        ended = subprocess.run([tools / 'install', 'elsewhere'], cwd=self.folder, capture_output=True, text=True)
        self.assertEqual((ended.returncode, ended.stderr.partition(': ')[2]),
                         (2, f'{tools.parent} is an installation, which only removes itself\n'))

    def test_a_file_that_is_missing_is_named(self):
        with self.assertRaisesRegex(command.Stopped, 'tools/install is missing'):
            distribution.files(os.environ['TI_BENCH'], self.folder)

    def test_each_command_has_a_page_and_each_page_of_a_tool_all_its_options(self):
        dates = set()
        for name, script in distribution.commands().items():
            page = (TOP / f'man/{name}.1').read_text('utf-8').replace('\\-', '-')
            dates.add(re.match(rf'\.TH {name.upper()} 1 (\S+) ti_bench "User Commands"\n', page)[1])
            options = re.findall(r'--[a-z]+', self.call(script, '--help').stdout.decode())
            self.assertEqual({option for option in options if option not in page} - {'--help'}, set(), name)
        self.assertEqual(len(dates), 1)

    def test_an_empty_name_of_a_folder_is_refused(self):
        for words in ([''], ['--remove', '']):
            ended = self.call('install', *words)
            self.assertEqual((ended.returncode, ended.stderr), (2, b'tools/install: the name of the folder is empty\n'))
        self.assertEqual(list(self.folder.iterdir()), [])

    def release(self, **kits):
        """How a release of two programs ends, each with a kit that has proved it, or none."""
        for name in distribution.PROGRAMS:
            program = self.file(f'built/{name}', b'a program')
            program.chmod(0o755)
            target.kit_file(program).unlink(missing_ok=True)
            if name in kits:
                self.file(f'built/{name}.kit', f'{kits[name]}\n{target.checksum(program)}\n'.encode())
        ended = self.call('release', '--program', 'built/ti_bench', 'made', SOURCE_DATE_EPOCH='0', TI_DEBUG='')
        self.assertFalse((self.folder / 'made').exists())
        return ended.returncode, ended.stderr.decode()

    def test_no_release_is_made_of_programs_of_which_no_kit_is_known(self):
        kit = f'{distribution.kits_named()[0]} more'
        for kits in ({}, {'ti_bench': kit}, {'ti_debug': kit}, {'ti_bench': kit, 'ti_debug': 'rattle-kit-0x more'}):
            status, said = self.release(**kits)
            self.assertEqual((status, said), (1, f'tools/release: nothing says which kit has proved {self.folder}/built/'
                                                 'ti_bench and its ti_debug; .ci/run writes that\n'))

    def test_no_release_is_made_if_the_readme_names_another_kit(self):
        status, said = self.release(ti_bench='rattle-kit-0x more', ti_debug='rattle-kit-0x more')
        self.assertEqual(status, 1)
        self.assertRegex(said, r'the programs are proved with rattle-kit-0x more, but README\.md .* rattle-kit-\w+: name')
        kit = f'{distribution.kits_named()[-1]} more'
        self.assertNotIn('README', self.release(ti_bench=kit, ti_debug=kit)[1])
        self.assertRegex(self.release(ti_bench=kit, ti_debug=kit)[1], 'ti_bench is no program for Linux on x86-64')


    def test_a_document_says_what_holds_in_an_installation(self):
        text = ('# A\n<!-- in the repository -->\n`./ti_bench` here\n<!-- installed\n`ti_bench` there\n-->\n'
                '<!-- in the repository -->\nmore\n<!-- end -->\n    (cd a && ../../ti_debug list | ./ti_bench asm)\n'
                '`tools/raw`, `tools/rawer`, `tools/built`, x/tools/raw [a](B.md#c) [d](../man/m.1) [e](../crates/f) '
                '[g](https://h/i.md) ![p](p.png)\n')
        places = {'docs/A.md': 'share/doc/t/docs/A.md', 'docs/B.md': 'share/doc/t/docs/B.md',
                  'man/m.1': 'share/man/man1/m.1.gz', 'docs/p.png': 'share/doc/t/docs/p.png'}
        wanted = ('# A\n`ti_bench` there\n    (cd a && ti_debug list | ti_bench asm)\n'
                  '`ti_bench-raw`, `tools/rawer`, `tools/built`, x/tools/raw [a](B.md#c) [d](../../../man/man1/m.1.gz) '
                  'e [g](https://h/i.md) ![p](p.png)\n')
        self.assertEqual(documents.installed('docs/A.md', text, places, ['raw', 'label']), wanted)
        places['docs/TESTING.md'] = 'share/doc/t/docs/TESTING.md'
        self.assertEqual(documents.installed('docs/TESTING.md', './ti_bench [a](B.md)', places, ['raw']),
                         './ti_bench [a](B.md)')

    def test_the_documents_have_both_texts_where_they_differ(self):
        placed = distribution.installed(distribution.files(os.environ['TI_BENCH']), 'ti-bench', '.gz')
        for name in ('README.md', 'docs/USE.md'):
            text = placed[f'share/doc/ti-bench/{name}'].data.decode()
            self.assertNotRegex(text, r'<!--|-->|\./ti_bench|\.ci/run|\btools/label')
        self.assertIn('(../../man/man1/ti_bench.1.gz)', placed['share/doc/ti-bench/README.md'].data.decode())
        self.assertIn('share/man/man1/ti_bench.1.gz', placed)

    def test_without_dpkg_deb_there_is_no_package_which_is_said(self):
        for name in ('env', 'python3'):
            (self.folder / 'bin').mkdir(exist_ok=True)
            (self.folder / 'bin' / name).symlink_to(shutil.which(name))
        programs = {'ti_bench': os.environ['TI_BENCH'], 'ti_debug': other(os.environ['TI_BENCH'], 'ti_debug')}
        for name, path in programs.items():
            copy = shutil.copy(path, self.folder / name)
            mark = target.checksum(pathlib.Path(copy))
            target.kit_file(copy).write_text(f'{distribution.kits_named()[0]}\n{mark}\n')
        ended = self.call('release', '--program', self.folder / 'ti_bench', 'made', SOURCE_DATE_EPOCH='0', TI_DEBUG='',
                          PATH=str(self.folder / 'bin'))
        archive, said = ended.stdout.decode().splitlines()
        self.assertEqual((ended.returncode, said), (0, 'no package: there is no dpkg-deb'))
        self.assertEqual([str(path.relative_to(self.folder)) for path in (self.folder / 'made').iterdir()], [archive])


class Libraries(Calling):
    def test_they_are_those_that_readelf_tells(self):
        if not shutil.which('readelf'):
            self.skipTest('no readelf here')
        for path in (os.environ['TI_BENCH'], '/bin/sh', '/usr/bin/env'):
            dynamic = subprocess.run(['readelf', '-dVW', path], capture_output=True, text=True).stdout
            program = elf.Program(pathlib.Path(path).read_bytes(), path)
            self.assertEqual(program.libraries(), re.findall(r'\(NEEDED\).*\[(.*)\]', dynamic))
            self.assertEqual(sorted(version for versions in program.versions().values() for version in versions),
                             sorted(re.findall(r'Name: (\S+)  Flags', dynamic)))

    def test_another_file_is_no_program(self):
        for data in (b'', b'#!/bin/sh\n', b'\x7fELF\x01\x01' + bytes(60)):
            with self.assertRaisesRegex(command.Stopped, 'is no program for Linux on x86-64'):
                elf.Program(data, 'x')

    def test_the_newest_version_is_by_its_numbers(self):
        self.assertEqual(elf.newest(['GLIBC_2.4', 'GLIBC_2.34', 'GLIBC_2.2.5', 'GLIBC_PRIVATE']), '2.34')
        self.assertEqual(elf.newest([]), '')
