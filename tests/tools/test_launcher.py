"""Tests of tools/launcher as the commands of an installation: statuses, what it says of them, streams and signals."""
import os
import pathlib
import pty
import re
import shutil
import signal
import subprocess
import time

from calling import TOOLS, TOP, Calling, hearing
from lib import distribution, program

# a program that ends with a status, or by a signal, or only by one from elsewhere
ENDS = b"""#!/bin/sh
case $1 in
    status) exit "$2" ;;
    signal) kill -"$2" "$$" ;;
    words) shift; printf '<%s>' "$@" ;;
    name) echo "${0##*/}" ;;
    input) exec cat ;;
    wait) echo "$$"; exec sleep 60 ;;
esac
"""
SHELLS = [shell for shell in (['sh'], ['dash'], ['bash', '--posix'], ['busybox', 'sh']) if shutil.which(shell[0])]


class Installed(Calling):
    """Tests with an installation of the launcher over a program that ends as it is asked to."""

    def setUp(self):
        super().setUp()
        self.command = self.folder / 'bin/ti_bench'
        self.file('lib/ti_bench/VERSION', b'1.2\n')
        (self.folder / 'lib/ti_bench/tools').mkdir()
        shutil.copy(TOOLS / 'launcher', self.folder / 'lib/ti_bench/tools/launcher')
        self.command.parent.mkdir()
        for name in distribution.PROGRAMS:
            self.file(f'lib/ti_bench/{name}', ENDS).chmod(0o755)
            (self.folder / 'bin' / name).symlink_to('../lib/ti_bench/tools/launcher')

    def started(self, *words, name='ti_bench', shell=(), out=subprocess.PIPE, **more):
        """How a call ends."""
        return subprocess.run([*shell, self.folder / 'bin' / name, *words], stdout=out, stderr=subprocess.PIPE,
                              preexec_fn=hearing, **more)


class Launcher(Installed):
    def test_a_status_is_handed_on_and_said_if_the_program_said_nothing(self):
        said = {2: b'ti_bench: status is no command; the input comes by standard input; ti_bench --help says more\n',
                3: b'ti_bench: the input or a file could not be read\n',
                4: b'ti_bench: the report could not be written\n', 5: b'ti_bench: out of memory\n'}
        for shell in SHELLS:
            for status in range(8):
                with self.subTest(shell=shell, status=status), open(self.folder / 'out', 'wb') as out:
                    ended = self.started('status', str(status), shell=shell, out=out)
                    self.assertEqual((ended.returncode, ended.stderr), (status, said.get(status, b'')))

    def test_nothing_is_said_if_a_reader_has_gone(self):
        self.assertEqual(self.started('status', '4').stderr, b'')

    def test_it_ends_by_the_signal_that_ended_the_program(self):
        for shell in SHELLS:
            for number in (signal.SIGPIPE, signal.SIGHUP, signal.SIGTERM, signal.SIGKILL):
                with self.subTest(shell=shell, number=number):
                    ended = self.started('signal', str(int(number)), shell=shell)
                    self.assertIn(ended.returncode, (-number, 128 + number))

    def test_words_are_handed_on_as_they_are(self):
        words = ['words', '', 'a b', '*', '--help', "it's", '-h', 'x\ny']
        self.assertEqual(self.started(*words).stdout, ''.join(f'<{word}>' for word in words[1:]).encode())

    def test_standard_input_is_handed_on(self):
        for shell in SHELLS:
            with self.subTest(shell=shell):
                self.assertEqual(self.started('input', shell=shell, input=b'one\ntwo').stdout, b'one\ntwo')

    def test_a_signal_to_the_command_alone_ends_the_program_too(self):
        for shell in SHELLS:
            for number in (signal.SIGHUP, signal.SIGINT, signal.SIGTERM):
                with self.subTest(shell=shell, number=number):
                    self.assert_ends_both(shell, number)

    def assert_ends_both(self, shell, number):
        """A signal to the command ends it and its program."""
        with subprocess.Popen([*shell, self.command, 'wait'], stdout=subprocess.PIPE, preexec_fn=hearing) as running:
            program = pathlib.Path('/proc', running.stdout.readline().decode().strip())
            time.sleep(0.05)
            running.send_signal(number)
            self.assertIn(running.wait(10), (-number, 128 + number))
            self.assertFalse(program.exists())

    def test_the_program_is_the_one_of_the_name_also_through_links(self):
        for name in distribution.PROGRAMS:
            (self.folder / 'bin' / f'my {name}').symlink_to(name)
            (self.folder / f'{name} of mine').symlink_to(self.folder / 'bin' / f'my {name}')
            for called in (name, f'my {name}', f'../{name} of mine'):
                with self.subTest(called=called):
                    self.assertEqual(self.started('name', name=called).stdout, f'{name}\n'.encode())

    def test_help_and_version_are_whole_words_alone(self):
        for name in distribution.PROGRAMS:
            self.assertEqual(self.started('--version', name=name).stdout, f'{name} 1.2\n'.encode())
            self.assertEqual(self.started('--help', name=name).stdout, self.started('-h', name=name).stdout)
            self.assertTrue(self.started('--help', name=name).stdout.startswith(f'{name} '.encode()))
            self.assertEqual(self.started('--version', 'x', name=name).stdout, b'')

    def test_the_help_names_the_other_program_and_all_tools(self):
        bench, debug = (self.started('--help', name=name).stdout.decode() for name in distribution.PROGRAMS)
        self.assertEqual([tool for tool in distribution.TOOLS if f'-{tool}' not in bench], [])
        self.assertTrue('ti_debug --help' in bench and '--version' in bench and 'ti_bench --help' in debug)

    def test_a_help_that_cannot_be_written_is_said_in_one_line(self):
        for shell in SHELLS:
            for word, what in (('--help', 'help'), ('--version', 'version')):
                for out in ('>/dev/full', '>&-'):
                    with self.subTest(shell=shell, word=word, out=out):
                        ended = subprocess.run(['sh', '-c', f'"$@" {out}', 'sh', *shell, self.command, word],
                                               capture_output=True)
                        self.assertEqual((ended.returncode, ended.stdout, ended.stderr),
                                         (4, b'', f'ti_bench: the {what} could not be written\n'.encode()))

    def test_without_the_program_it_says_where_it_looked(self):
        os.remove(self.folder / 'lib/ti_bench/ti_bench')
        ended = self.started('demo', '2')
        self.assertEqual((ended.returncode, ended.stderr.count(b'\n')), (70, 1))


class WithProgram(Installed):
    """Tests with the launcher over the program itself."""

    def setUp(self):
        super().setUp()
        shutil.copy(os.environ['TI_BENCH'], self.folder / 'lib/ti_bench/ti_bench')
        self.program = self.folder / 'lib/ti_bench/ti_bench'


class OverTheProgram(WithProgram):
    """What the program writes, and how it ends, is the same."""

    def shell(self, line, command):
        """How a line of the shell ends in which the command is $C, with what came on its output."""
        ended = subprocess.run(['bash', '-c', line], capture_output=True, cwd=self.folder,
                               env={'PATH': '/usr/bin:/bin', 'C': str(command)})
        return ended.returncode, ended.stdout

    def test_streams_are_handed_on(self):
        self.file('input', b'A INC @>8300\n B A\n END A\n')
        for line in ('"$C" run 5 <input', '"$C" gasm <&-', '"$C" gasm <.', '"$C" demo 2 >&-', '"$C" demo 2 >/dev/full',
                     '"$C" gasm <&- >&- 2>&-', '"$C" frob 2>&-',
                     '"$C" frob 2>&1 | sed -n 1p; exit "${PIPESTATUS[0]}"', '"$C" gasm <<<" FOO" 2>&1',
                     '"$C" trace 100000 <input | head -n 3; exit "${PIPESTATUS[0]}"',
                     'cat input | "$C" gasm', '(ulimit -v 200000; "$C" interp)'):
            with self.subTest(line=line):
                self.assertEqual(self.shell(line, self.command), self.shell(line, self.program))

    def test_a_trace_whose_reader_has_gone_is_quiet(self):
        self.file('input', b'A INC @>8300\n B A\n END A\n')
        ended = subprocess.run(['bash', '-c', '"$C" trace 100000 <input | head -n 1'], capture_output=True,
                               cwd=self.folder, env={'PATH': '/usr/bin:/bin', 'C': str(self.command)})
        self.assertEqual((ended.stdout.count(b'\n'), ended.stderr), (1, b''))


# words that are wrong, and what is said of them; `*` is a control code
WRONG = [
    ('', 'a command is missing'), ('frob', 'frob is no command'), ('fr*ob', 'fr?ob is no command'),
    ('glist', 'glist is a command of ti_debug'), ('--help run', '--help is no command'),
    ('asm x', 'x is a word too many'), ('run 100 hello.gpl', 'hello.gpl is a word too many'),
    ('run', 'N is missing; N is a number from 0 to 100,000'), ('trace 200000', '200000: N is a number from 0 to 100,000'),
    ('run 007', '007: N is a number from 0 to 100,000'), ('run x*', 'x?: N is a number'),
    ('exec 10000001', '10000001: N is a number from 0 to 10,000,000'), ('demo 501', '501: K is a number from 1 to 500'),
    ('dis 6001', '6001: ADDR is four hexadecimal digits, and even'), ('gdis 60', '60: ADDR is four hexadecimal digits'),
    ('watch 5', 'ITEM is missing; ITEM is pad:AAAA+LEN within 8300 to 83C1, vdp:AAAA+LEN within 0000 to 3FFF, or pc:'),
    ('watch 5 pc:6000 pad:8300', 'pad:8300: ITEM is pad:AAAA+LEN'), ('watch 5 vdp:3fff+2', 'vdp:3fff+2: ITEM is'),
    ('link sub/x', 'sub/x: NAME is a file of this folder, 1 to 60 letters, digits, ., _ and -'),
]
# the words at each limit, and beyond it
LIMITS = [
    ['run', '0'], ['run', '100000'], ['run', '100001'], ['run', ''], ['run', '-1'], ['run', '0x5'], ['run', '00'],
    ['trace', '100000'], ['trace', '100001'], ['exec', '10000000'], ['exec', '10000001'], ['exec', '9' * 30],
    ['demo', '0'], ['demo', '1'], ['demo', '500'], ['demo', '501'], ['dis', '6000'], ['dis', '6001'], ['dis', 'fFfE'],
    ['dis', '600'], ['dis', '60000'], ['dis', '600g'], ['gdis', 'FFFF'], ['gdis', '>600'], ['link'], ['link', 'a' * 60],
    ['link', 'a' * 61], ['link', '.a'], ['link', '-a_.9'], ['link', ''], ['link', *'abcdefghijklmnop'],
    ['link', *'abcdefghijklmnopq'], ['link', 'a', 'b c'], ['interp'], ['interp', 'x'], ['asm'], ['gasm', ''],
    ['watch', '5', 'pad:8300+194'], ['watch', '5', 'pad:8300+195'], ['watch', '5', 'pad:83C1+1'],
    ['watch', '5', 'pad:82FF+1'], ['watch', '5', 'pad:83C2+1'], ['watch', '5', 'pad:8300+0'],
    ['watch', '5', 'pad:8300+01'], ['watch', '5', 'vdp:0000+16384'], ['watch', '5', 'vdp:0000+16385'],
    ['watch', '5', 'vdp:3fFF+1'], ['watch', '5', 'vdp:4000+1'], ['watch', '5', 'pc:FFFF'], ['watch', '5', 'pc:FFFF+1'],
    ['watch', '100001', 'pc:0000'], ['watch', '5', *['pc:0000'] * 8], ['watch', '5', *['pc:0000'] * 9],
    ['watch', '5', 'pc:0000', 'PC:0000'], ['watch', '5', 'pad:8300'], ['watch', '5', 'pad:+1'],
]


class Usage(WithProgram):
    """What is said if words are wrong, or the input is waited for."""

    def said(self, *words, shell=(), name='ti_bench'):
        """The status of a call, and the lines that the launcher says."""
        ended = self.started(*words, shell=shell, name=name, input=b'')
        return ended.returncode, [line for line in ended.stderr.decode().splitlines() if line.startswith(f'{name}: ')]

    def test_a_line_says_which_word_is_wrong(self):
        for shell in SHELLS:
            for words, text in WRONG:
                status, lines = self.said(*words.replace('*', '\x1b').split(), shell=shell)
                self.assertEqual((status, len(lines)), (2, 1), words)
                self.assertTrue(lines[0].startswith(f'ti_bench: {text}'), lines[0])
                self.assertTrue(lines[0].endswith('; the input comes by standard input; ti_bench --help says more'))

    def test_its_limits_are_those_of_the_program(self):
        for words in LIMITS:
            status, lines = self.said(*words)
            is_refused = program.Program(os.environ['TI_BENCH']).run(*words).status == 2
            self.assertEqual((status == 2, [line for line in lines if ': the input' in line]), (is_refused, []), words)
            self.assertEqual(len([line for line in lines if line.endswith(' says more')]), is_refused, words)

    def test_its_limits_are_those_of_ti_debug(self):
        debugger = program.Program(program.other(os.environ['TI_BENCH'], 'ti_debug'))
        shutil.copy(debugger.path, self.folder / 'lib/ti_bench/ti_debug')
        for words in ([name, number] for name in ('grun', 'gsteps', 'gcounts', 'steps')
                      for number in ('0', '10000000', '10000001', '007')):
            status, lines = self.said(*words, name='ti_debug')
            self.assertEqual((status == 2, len(lines)), (debugger.run(*words).status == 2, status == 2), words)

    def test_its_limits_are_those_of_the_documents(self):
        security = (TOP / 'docs/SECURITY.md').read_text('utf-8')
        row = re.search(r'^\| N of `run`.* of `exec` .* K of `demo` \| (\S+); (\S+); (\S+) \|', security, re.M)
        for words, limit in (('run x', row[1]), ('exec x', row[2]), ('demo x', row[3])):
            self.assertIn(f' to {limit}, ', self.said(*words.split())[1][0])

    def test_help_after_a_command_is_help_unless_it_is_a_file(self):
        for words in (['trace', '--help'], ['link', '-h']):
            self.assertEqual(self.started(*words).stdout, self.started('--help').stdout)
        self.file('--help', b'')
        ended = self.started('link', '--help', cwd=self.folder)
        self.assertEqual((ended.returncode, ended.stderr), (1, b'no entry\n'))
        self.assertEqual(self.said('frob', '--help')[0], 2)

    def test_at_a_terminal_it_says_that_it_waits(self):
        for words, waits in ((['gasm'], True), (['run', '5'], True), (['interp'], False), (['run', 'x'], False),
                             (['demo', '1'], False), (['link', 'x'], False), (['link'], True)):
            terminal, end = pty.openpty()
            os.write(terminal, b'\x04')
            ended = subprocess.run([self.command, *words], stdin=end, stdout=subprocess.DEVNULL, stderr=subprocess.PIPE,
                                   cwd=self.folder, preexec_fn=hearing)
            for descriptor in (terminal, end):
                os.close(descriptor)
            self.assertEqual(b'ti_bench: waits for the input, which Ctrl-D ends\n' in ended.stderr, waits, words)
