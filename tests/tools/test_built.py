"""Tests of ./ti_bench and ./ti_debug in a repository (tools/launcher, tools/built, tools/version), with an rt that
proves nothing."""
import os
import pathlib
import pty
import re
import shutil
import subprocess
import time

from calling import TOOLS, TOP, Calling, hearing
from lib import target

RT = """#!/bin/sh
[ "$1" != version ] || exec echo rattle-kit-0x of a test
echo $$ >>"$CALLS"
cat >"$CALLS.input"
mkdir -p ../low/out/rlib/low.rlib
[ -z "$SECONDS_LONG" ] || sleep "$SECONDS_LONG"
[ -z "$FAILS" ] || exit "$FAILS"
name=${PWD##*/}
printf '#!/bin/sh\\necho built "$@"\\n' >"out/$name"
chmod +x "out/$name"
"""
OLD = 1_000_000_000
NOBODY = 65534


class Repository(Calling):
    """A repository of four crates, of which each program uses one, in a folder whose name has a blank."""

    def setUp(self):
        super().setUp()
        self.top = self.folder / 'a repository'
        shutil.copytree(TOOLS, self.top / 'tools', symlinks=True)
        for name in ('ti_bench', 'ti_debug'):
            shutil.copy(TOP / name, self.top / name)
        self.file(self.top / 'crates.txt', b'# crates\nlow:\nti_bench: low\nti_debug: low\nother: low\n')
        for name in ('low', 'ti_bench', 'ti_debug', 'other'):
            self.file(self.top / 'crates' / name / 'src/lib.rt', b'//! A crate.\n')
        self.file('bin/rt', RT.encode()).chmod(0o755)
        self.calls = self.folder / 'calls'
        self.program = self.top / 'crates/ti_bench/out/ti_bench'

    def environment(self, toolchain=True, **more):
        """What a call gets: a PATH with the toolchain or without it."""
        folders = [str(self.folder / 'bin')] if toolchain else []
        return {'PATH': ':'.join([*folders, '/usr/bin:/bin']), 'CALLS': str(self.calls), **more}

    def ti_bench(self, *words, command=None, **environment):
        """How a call of ./ti_bench ends."""
        return subprocess.run([command or self.top / 'ti_bench', *words], capture_output=True, text=True,
                              cwd=self.folder, env=self.environment(**environment))

    def builds(self):
        """How many builds there were."""
        return len(self.calls.read_text().split()) if self.calls.exists() else 0

    def age(self, *but):
        """Makes all sources old, the program less old, and these sources new."""
        for path in [self.top / 'crates.txt', *self.top.glob('crates/*/src'), *self.top.glob('crates/*/src/*')]:
            os.utime(path, (OLD, OLD))
        os.utime(self.program, (OLD + 1, OLD + 1))
        for name in but:
            os.utime(self.top / name)


class Built(Repository):
    def test_it_is_built_once(self):
        for _ in range(2):
            ended = self.ti_bench('run', '5')
            self.assertEqual((ended.returncode, ended.stdout), (0, 'built run 5\n'))
        self.assertEqual(self.builds(), 1)
        self.assertEqual((self.folder / 'calls.input').read_bytes(), b'S EXIT\n END S\n')

    def test_a_source_builds_it_again_if_the_program_uses_its_crate(self):
        self.ti_bench('demo')
        self.age('crates/other/src/lib.rt')
        self.assertEqual((self.ti_bench('demo').stderr, self.builds()), ('', 1))
        self.age('crates/low/src/lib.rt')
        self.assertEqual((self.ti_bench('demo').stdout, self.builds()), ('built demo\n', 2))

    def test_without_the_toolchain_an_old_program_is_used_and_none_is_an_error(self):
        ended = self.ti_bench('demo', toolchain=False)
        self.assertEqual((ended.returncode, ended.stdout), (70, ''))
        self.assertRegex(ended.stderr, 'has to be built first, and rt of the Rattle toolchain is not on the path\n$')
        self.ti_bench('demo')
        self.age('crates/low/src/lib.rt')
        ended = self.ti_bench('demo', toolchain=False)
        self.assertEqual((ended.returncode, ended.stdout), (0, 'built demo\n'))
        self.assertIn('crates/low/src/lib.rt is newer than the program', ended.stderr)

    def test_what_is_built_says_which_kit_has_proved_it(self):
        self.ti_bench('demo')
        self.assertEqual(target.kit_of(self.program), 'rattle-kit-0x of a test')
        self.assertIsNone(target.kit_of(self.top / 'crates/ti_debug/out/ti_debug'))
        self.program.write_bytes(self.program.read_bytes() + b'#\n')
        self.assertIsNone(target.kit_of(self.program))
        ended = self.ti_bench('--kit', command=self.top / 'tools/built')
        self.assertEqual((ended.returncode, ended.stdout), (3, ''))
        self.ti_bench('list', command=self.top / 'ti_debug')
        target.kit_file(self.program).unlink()
        builds = self.builds()
        self.assertEqual(self.ti_bench('--kit', command=self.top / 'tools/built').stdout, '')
        self.assertEqual({target.kit_of(self.top / f'crates/{name}/out/{name}') for name in ('ti_bench', 'ti_debug')},
                         {'rattle-kit-0x of a test'})
        self.assertEqual(self.builds(), builds)

    def test_a_build_that_fails_names_its_log(self):
        ended = self.ti_bench('demo', FAILS='1')
        self.assertEqual((ended.returncode, ended.stdout), (70, ''))
        self.assertIn('crates/ti_bench/out/build.log says why', ended.stderr)

    def test_a_build_that_fails_or_makes_no_program_is_an_error_also_if_an_old_one_is_there(self):
        self.ti_bench('demo')
        self.age('crates/low/src/lib.rt')
        for status in '1', '0':
            ended = self.ti_bench('demo', FAILS=status)
            self.assertEqual((ended.returncode, ended.stdout), (70, ''))
            self.assertIn('the program could not be built; crates/ti_bench/out/build.log says why', ended.stderr)
            self.program.unlink(missing_ok=True)

    def test_if_nothing_may_be_written_an_old_program_is_used_and_none_is_an_error(self):
        self.ti_bench('demo')
        self.age('crates/low/src/lib.rt')
        out = self.program.parent
        for path, mode in ((self.folder, 0o755), (out / 'build.lock', 0o444), (out, 0o555)):
            path.chmod(mode)
        self.addCleanup(out.chmod, 0o755)
        other = {'user': NOBODY, 'group': NOBODY, 'extra_groups': []} if os.geteuid() == 0 else {}

        def called():
            ended = subprocess.run([self.top / 'ti_bench', 'demo'], capture_output=True, text=True, cwd='/',
                                   env=self.environment(), **other)
            return ended.returncode, ended.stdout, ended.stderr

        why = 'and crates/ti_bench/out/build.lock: Permission denied'
        self.assertEqual(called(), (0, 'built demo\n', f'tools/built: crates/low/src/lib.rt is newer than the program, '
                                                       f'{why}; the old program is used\n'))
        self.program.chmod(0o644)
        self.assertEqual(called(), (70, '', f'tools/built: the program has to be built first, {why}\n'))
        self.assertEqual(self.builds(), 1)

    def test_a_link_is_followed_and_a_copy_is_refused(self):
        link, copy = self.folder / 'a link', self.folder / 'elsewhere/ti_bench'
        link.symlink_to(self.top / 'ti_bench')
        self.assertEqual(self.ti_bench('demo', command=link).stdout, 'built demo\n')
        copy.parent.mkdir()
        for copied in ('ti_bench', 'ti_debug', 'tools/launcher'):
            shutil.copy(self.top / copied, copy)
            ended = self.ti_bench('demo', command=copy)
            self.assertEqual((ended.returncode, ended.stdout, ended.stderr.count('\n')), (70, '', 1))
            self.assertEqual(os.listdir(copy.parent), ['ti_bench'])

    def test_the_second_program_is_built_by_its_own_name(self):
        debug, link = self.top / 'ti_debug', self.folder / 'a link'
        link.symlink_to(debug)
        self.file(self.top / 'CHANGELOG.md', b'# Changes\n\n## 1.2\n')
        self.assertEqual(self.ti_bench('--version', command=link).stdout, 'ti_debug 1.2+unreleased\n')
        self.assertIn('gsteps N', self.ti_bench('--help', command=debug).stdout)
        self.assertEqual(self.builds(), 0)
        for command in (debug, link):
            self.assertEqual(self.ti_bench('list', command=command).stdout, 'built list\n')
        self.assertEqual((self.builds(), self.program.exists()), (1, False))

    def test_help_and_version_build_nothing(self):
        self.file(self.top / 'CHANGELOG.md', b'# Changes\n\n## 1.2\n\n- All.\n')
        self.assertEqual(self.ti_bench('--version').stdout, 'ti_bench 1.2+unreleased\n')
        self.file(self.top / 'CHANGELOG.md', b'# Changes\n\n## Unreleased\n\n- More.\n\n## 1.2\n\n- All.\n')
        self.assertEqual(self.ti_bench('--version').stdout, 'ti_bench 1.2+unreleased\n')
        self.assertEqual(self.ti_bench('--help').stdout, self.ti_bench('-h').stdout)
        self.assertEqual(self.builds(), 0)

    def test_an_output_that_is_full_is_said(self):
        self.file(self.top / 'CHANGELOG.md', b'## 1.2\n')
        with open('/dev/full', 'wb') as full:
            ended = subprocess.run([self.top / 'tools/version'], stdout=full, stderr=subprocess.PIPE)
        self.assertEqual((ended.returncode, ended.stderr),
                         (3, b'tools/version: standard output: No space left on device\n'))

    def git(self, *words):
        """Calls git in the repository, as somebody, without the hooks of the user."""
        subprocess.run(['git', '-C', self.top, '-c', 'user.name=A', '-c', 'user.email=a@example', '-c',
                        'core.hooksPath=none', *words], check=True, capture_output=True)

    def test_a_version_is_a_number_alone_at_its_tag_with_no_other_files(self):
        self.file(self.top / 'CHANGELOG.md', b'# Changes\n\n## 1.2\n')
        self.file(self.top / '.gitignore', b'__pycache__/\nout/\n')
        for words in (['init', '-q'], ['add', '.'], ['commit', '-q', '-m', 'All', '--date', '2026-01-02T03:04:05Z']):
            self.git(*words)
        after = r'^ti_bench 1\.2\+git[0-9]{8}\.[0-9a-f]{8}'
        self.assertRegex(self.ti_bench('--version').stdout, rf'{after}\n$')
        self.git('tag', '1.1')
        self.assertRegex(self.ti_bench('--version').stdout, rf'{after}\n$')
        self.git('tag', '-a', '-m', 'A release', '1.2')
        self.assertEqual(self.ti_bench('--version').stdout, 'ti_bench 1.2\n')
        new = self.file(self.top / 'docs/new.md', b'')
        self.assertRegex(self.ti_bench('--version').stdout, rf'{after}\.modified\n$')
        new.unlink()
        self.file(self.top / 'crates.txt', b'# other crates\n')
        self.assertRegex(self.ti_bench('--version').stdout, rf'{after}\.modified\n$')
        self.git('commit', '-q', '-a', '-m', 'More')
        self.assertRegex(self.ti_bench('--version').stdout, rf'{after}\n$')
        self.file(self.top / 'CHANGELOG.md', b'# Changes\n\n## Unreleased\n\n## 1.2\n')
        self.git('commit', '-q', '-a', '-m', 'More yet')
        self.git('tag', '-f', '1.2')
        self.assertRegex(self.ti_bench('--version').stdout, rf'{after}\n$')

    def test_what_git_refuses_is_said(self):
        self.file(self.top / 'CHANGELOG.md', b'# Changes\n\n## 1.2\n')
        self.file('bin/git', b'#!/bin/sh\necho "fatal: detected dubious ownership in repository" >&2\nexit 128\n')
        (self.folder / 'bin/git').chmod(0o755)
        (self.top / '.git').mkdir()
        ended = self.ti_bench('--version')
        self.assertEqual((ended.stdout, ended.stderr),
                         ('ti_bench 1.2+unreleased\n',
                          'tools/version: git: fatal: detected dubious ownership in repository\n'))


class Unasked(Repository):
    """Tools that need a program, where none is built, or an old one."""

    def tool(self, *words):
        """How a call of a tool of the repository ends."""
        return subprocess.run([self.top / 'tools' / words[0], *words[1:]], capture_output=True, text=True,
                              cwd=self.folder, env=self.environment())

    def test_no_tool_builds_a_program(self):
        self.file('a.gpl', b'')
        self.file('images/a.bin', b'x')
        for words in (['assemble', 'a.gpl'], ['label', 'gdis', '6000'], ['steps', 'a.gpl'], ['archive', 'images'],
                      ['watch', 'a.gpl', '5', 'pad:8300'], ['install', 'prefix'], ['release', 'made']):
            ended = self.tool(*words)
            self.assertEqual((ended.returncode, ended.stdout), (3, ''), words)
            self.assertEqual(ended.stderr, f'tools/{words[0]}: no program is built: ./ti_bench builds it, or set '
                                           'TI_BENCH\n')
        self.assertEqual((self.builds(), (self.folder / 'prefix').exists(), (self.folder / 'made').exists()),
                         (0, False, False))
        self.ti_bench('demo')
        ended = self.tool('steps', 'a.gpl')
        self.assertEqual((ended.returncode, ended.stderr), (3, 'tools/steps: no program is built: ./ti_debug builds '
                                                               'it, or set TI_DEBUG\n'))
        self.assertEqual(self.builds(), 1)

    def test_an_old_program_is_used_and_said_to_be_old(self):
        self.file('a.gpl', b'')
        self.ti_bench('demo')
        self.age('crates/other/src/lib.rt')
        self.assertEqual((self.tool('assemble', 'a.gpl').stdout, self.tool('assemble', 'a.gpl').stderr),
                         ('built gasm\n', ''))
        self.age('crates/low/src/lib.rt')
        ended = self.tool('assemble', 'a.gpl')
        self.assertEqual((ended.returncode, ended.stdout), (0, 'built gasm\n'))
        self.assertEqual(ended.stderr, 'tools/assemble: crates/low/src/lib.rt is newer than the program; ./ti_bench '
                                       'builds it anew\n')
        self.assertEqual(self.builds(), 1)


class Stopped(Repository):
    def assert_ended(self):
        """The build ends in time, and the next one goes on."""
        building = pathlib.Path('/proc', self.calls.read_text().strip())
        for _ in range(50):
            if not building.exists():
                break
            time.sleep(0.1)
        self.assertFalse(building.exists())
        self.assertEqual(self.ti_bench('demo').stdout, 'built demo\n')

    def test_a_signal_to_the_command_alone_stops_the_build(self):
        running = subprocess.Popen([self.top / 'ti_bench', 'demo'], cwd=self.folder, stderr=subprocess.DEVNULL,
                                   env=self.environment(SECONDS_LONG='60'), preexec_fn=hearing)
        while not self.calls.exists() or not self.calls.read_text():
            time.sleep(0.1)
        running.terminate()
        self.assertEqual(running.wait(), 70)
        self.assert_ended()

    def test_a_signal_to_the_tool_that_builds_stops_the_build(self):
        running = subprocess.Popen([self.top / 'tools/built'], cwd=self.folder, stderr=subprocess.DEVNULL,
                                   env=self.environment(SECONDS_LONG='60'), preexec_fn=hearing)
        while not self.calls.exists() or not self.calls.read_text():
            time.sleep(0.1)
        running.terminate()
        self.assertEqual(running.wait(), 143)
        self.assert_ended()

    def test_on_a_terminal_it_shows_how_far_it_is_and_ctrl_c_stops_it(self):
        child, terminal = pty.fork()
        if not child:
            hearing()
            os.chdir(self.folder)
            os.execve(self.top / 'ti_bench', ['ti_bench', 'demo'], self.environment(SECONDS_LONG='60'))
        self.addCleanup(os.close, terminal)
        seen = b''
        while not re.search(rb'1 of 2 crates proved, [^\r]* left', seen):
            seen += os.read(terminal, 1000)
        os.write(terminal, b'\x03')
        self.assertEqual(os.waitstatus_to_exitcode(os.waitpid(child, 0)[1]), 70)
        self.assert_ended()
