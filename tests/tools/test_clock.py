"""Tests of stepping.clock and of what tools/steps does when a run takes too long, or has too many changes. test_watch
has the same of tools/watch."""
import io
import time
import unittest
from unittest import mock

import test_steps
from calling import Calling
from lib import program
from lib.dump import dump
from lying import sleeper
from stepping import clock, reports, run


class Cut(Calling):
    def cut(self, *words, bench=None):
        """How a call ends for which the debugger is too slow after the first three steps of a.gpl."""
        source = b'S ALL >20\n ALL >21\n B S\n END S\n'
        self.file('a.gpl', source)
        debugger = program.Program(program.other(program.program().path, 'ti_debug'))
        begun = b''.join(debugger.run('gsteps', '9', given=source).out.splitlines(True)[:3])
        slow = {'TI_DEBUG': sleeper(self.folder, debugger.path, 'gsteps', begun)}
        return source, self.call(*words, **slow, **({'TI_BENCH': bench} if bench else {}))

    def test_a_run_that_takes_too_long_is_cut_and_that_is_said(self):
        source, ended = self.cut('steps', '--seconds', '10', 'a.gpl', '9')
        self.assertEqual(ended.returncode, 0, ended.stderr)
        data = test_steps.data_of(ended.stdout)
        self.assertEqual(data['end'], 'Only the first 3 steps are shown: more would take longer than 10 seconds.')
        self.assertIn(data['end'], ended.stderr.decode())
        *_, last = test_steps.states(data)
        shown = dump(program.program().run('run', '3', given=source).out.decode('latin-1'))
        self.assertEqual(last[test_steps.VIDEO:test_steps.REGISTERS], shown.vdp)

    def test_what_helps_is_said(self):
        said = [clock.Clock(0, *remedy).over().text for remedy in ((), ('fewer steps do not',))]
        self.assertEqual(said, ['the program runs longer than 0 seconds; --seconds gives it more',
                                'the program runs longer than 0 seconds; fewer steps do not'])

    def test_if_there_is_no_time_for_the_state_no_page_is_written(self):
        said = b'tools/steps: the program runs longer than 1 seconds; --seconds gives it more\n'
        for bench in None, sleeper(self.folder, program.program().path, 'run'):
            begun = time.monotonic()
            ended = self.cut('steps', '--seconds', '1' if bench else '0', 'a.gpl', '9', bench=bench)[1]
            self.assertEqual((ended.returncode, ended.stdout), (1, b''))
            self.assertEqual(ended.stderr, said if bench else said.replace(b'1', b'0'))
            self.assertLess(time.monotonic() - begun, 20)

    def test_a_program_that_is_ended_by_another_is_not_too_slow(self):
        self.file('a.gpl', b'S EXIT\n END S\n')
        debugger = program.other(program.program().path, 'ti_debug')
        script = f'#!/bin/sh\n[ "$1 $2" = "gsteps 9" ] && cat >/dev/null && kill -9 $$\nexec "{debugger}" "$@"\n'
        killed = self.file('killed', script.encode())
        killed.chmod(0o755)
        ended = self.call('steps', 'a.gpl', '9', TI_DEBUG=str(killed))
        self.assertEqual((ended.returncode, ended.stdout), (1, b''))
        self.assertTrue(ended.stderr.endswith(b'gsteps 9: ended with status -9\n'), ended.stderr)

    def read(self, lines, seconds=1, seconds_a_line=0, most=None):
        """How many steps of a report are read, and why no more, if each line takes so many seconds to come."""
        times = iter(number * seconds_a_line for number in range(1000))
        with mock.patch.object(clock.time, 'monotonic', lambda: next(times)), \
                mock.patch.object(reports, 'MOST_BYTES', most or reports.MOST_BYTES):
            kept = reports.Whole()
            rest, cut = reports.steps_of(io.BytesIO(b''.join(lines)), run.step_of, clock.Clock(seconds), kept)
        return kept.count, rest, cut

    def test_the_last_steps_are_left_out_after_half_of_the_seconds_that_are_given(self):
        lines = [b'%6d >6000 S00 D9F R7E INC @>8300 >8300=%02X\n' % (number, number) for number in range(1, 100)]
        end = b'gpl >6000 S00 D9F R7E\n'
        self.assertEqual(self.read([*lines, end], 100, 0.5), (99, end, ''))
        self.assertEqual(self.read([*lines, end], 20.5, 0.5),
                         (21, b'', 'more would take longer than 20.5 seconds'))
        self.assertEqual(self.read([*lines, end], 0.5, 0.125), (2, b'', 'more would take longer than 0.5 seconds'))
        # a line without its end, as a process leaves it that is ended, is no step
        self.assertEqual(self.read([*lines[:2], lines[2][:-1]]), (2, lines[2][:-1], ''))

    def test_the_last_steps_are_left_out_if_the_changes_are_too_many(self):
        lines = [b'%6d >6000 S00 D9F R7E MOVE >0004,@>8300,V@>0000 >8300=01,02,03,04\n' % number
                 for number in range(1, 100)]
        self.assertEqual(reports.MOST_BYTES, 32_000_000)
        # a step of four bytes has eight digits, and takes 28 bytes of a page
        self.assertEqual(self.read(lines, most=27)[::2], (1, 'the changes are more than 0 MB'))
        self.assertEqual(self.read(lines, most=28)[::2], (2, 'the changes are more than 0 MB'))
        self.assertEqual(self.read(lines, most=10 * 28)[::2], (11, 'the changes are more than 0 MB'))
        self.assertEqual(self.read(lines, most=99 * 28)[::2], (99, ''))


if __name__ == '__main__':
    unittest.main()
