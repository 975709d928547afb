"""What COMMAND leaves running is ended before the next state begins, and at the check's end."""

import io
import os
import signal
import subprocess
import sys
import time
import unittest
from contextlib import redirect_stderr
from typing import Any, List
from unittest import mock

import crashfs_tools
from crashfs_tools.checker import main
from crashfs_tools.checker.checked_trace import CheckedTrace
from crashfs_tools.checker.options import Options
from crashfs_tools.checker.running.progress import Progress
from crashfs_tools.checker.running.runner import NO_ANSWER, LeftRunning
from crashfs_tools.checker.running.trials import Trials
from crashfs_tools.checker.running.workers import StateWorkers
from crashfs_tools.common import descendants
from crashfs_tools.common.guard import Guard
from crashfs_tools.common.program import Crashfs
from crashfs_tools.common.signals import TimeUp

from .support import FAKE, PATIENCE, long_time
from .test_check_command import InStore, processes
from .test_runner import InRuns

# Fails if a process that an earlier state left runs still, and leaves another.
LEAVES = """\
#!{python} -S
import os, sys, time
word = '{word}'
for name in filter(str.isdigit, os.listdir('/proc')):
    try:
        if word in open('/proc/%s/cmdline' % name, errors='replace').read().split('\\0'):
            print('left: by another state')
            sys.exit(1)
    except OSError:
        pass
if os.fork():
    time.sleep(0.01)
    sys.exit(0)
{leave}
"""
SLEEP = "os.execv('/bin/sleep', ['sleep', word])"
BARE = "os.execve('/bin/sleep', ['sleep', word], {})"
DAEMON = f"""\
os.setsid()
if os.fork():
    os._exit(0)
os.setsid()
{BARE}"""
# What is left has a reaper of its own.
WITH_REAPER = f"""\
import ctypes
ctypes.CDLL(None).prctl(36, 1, 0, 0, 0)
os.setsid()
if os.fork() == 0:
    os.setsid()
    if os.fork():
        os._exit(0)
    {BARE}
time.sleep(600)"""
# A process that ends as soon as the next one of its kind has begun.
COMET = """\
end = time.monotonic() + 20
while time.monotonic() < end:
    {new}
    if os.fork():
        os._exit(0)
    os.write(os.open('{alive}', os.O_WRONLY | os.O_APPEND), b'.')
    os.closerange(3, 9)"""


class Left(InStore):
    def check_leaving(self, leave, *words):
        self.write(
            'leave.py', LEAVES.format(python=sys.executable, word=self.long, leave=leave), 0o755
        )
        return self.run_tool(
            'crashfs-check', '--crashfs', FAKE, '--jobs', '1', *words, self.good, '--', './leave.py'
        )

    def test_no_later_state_meets_what_an_earlier_one_left(self):
        for leave in (SLEEP, BARE, DAEMON, WITH_REAPER):
            with self.subTest(leave):
                ran = self.check_leaving(leave)
                self.assertEqual((ran.returncode, ran.stderr), (0, ''), ran.stdout)
                self.assert_ended()
                self.assert_nothing_left()

    def test_what_forks_and_ends_all_the_time_is_ended(self):
        for new in ('pass', 'os.setsid()', 'os.setpgid(0, 0)'):
            with self.subTest(new):
                alive = self.write('alive', '')
                ran = self.check_leaving(COMET.format(new=new, alive=alive), '--prefixes')
                self.assertEqual((ran.returncode, ran.stderr), (0, ''), ran.stdout)
                size = os.path.getsize(alive)
                self.assertGreater(size, 0)
                time.sleep(0.2)
                self.assertEqual(os.path.getsize(alive), size)

    def test_a_killed_check_leaves_nothing_of_the_first_states_either(self):
        begun = self.path('begun')
        child = self.start(
            'crashfs-check',
            '--crashfs',
            FAKE,
            self.good,
            '--',
            'sh',
            '-c',
            f'setsid env -i sleep {self.long} & echo > {begun}; sleep {self.long}',
        )
        self.wait_until(lambda: os.path.exists(begun), 'a command has begun', child)
        child.kill()
        child.communicate(timeout=PATIENCE)
        self.wait_until(lambda: not processes(self.long), 'nothing left')
        self.wait_until(lambda: os.listdir(self.temporary) == [], 'no directory left')


RUN = StateWorkers.run


def run_and_stop(workers, *words):
    """As StateWorkers.run, but the time is up then."""
    RUN(workers, *words)
    raise TimeUp


class Unkillable(InStore, InRuns):
    """Kills of COMMAND and of what it leaves have no effect, as of another user's processes."""

    def setUp(self):
        super().setUp()
        # Short, so that a check that waits for it fails here and doesn't hang.
        self.long = f'5.{long_time()[4:]}'
        self.addCleanup(lambda: [os.kill(one, signal.SIGKILL) for one in processes(self.long)])
        patches: List[Any] = [
            mock.patch('os.killpg'),
            mock.patch.object(descendants, 'kill_with_group'),
            mock.patch.object(descendants, 'ENDING_SECONDS', 0.3),
        ]
        for patched in patches:
            patched.start()
            self.addCleanup(patched.stop)

    def test_a_command_that_is_late_and_can_not_be_ended_gives_no_answer(self):
        outcome = self.run_once(f'exec sleep {self.long}', timeout=0.2)
        self.assertRegex(outcome.cause, r'^it could not be ended: [0-9]+ \(')
        self.assertEqual(outcome.result, NO_ANSWER)
        self.assertTrue(processes(self.long))

    def test_the_check_ends_and_nothing_more_is_run(self):
        self.write('runs', '')
        # Without the check's environment: by that the guard could end it.
        script = f'echo >> {self.path("runs")}; exec env -i sleep {self.long}'
        with self.assertRaisesRegex(
            LeftRunning, r'^a process that COMMAND left could not be ended: [0-9]+ \(.*\)$'
        ):
            crashfs_tools.check(
                self.good, ['sh', '-c', script], jobs=1, prefixes=True, unproved=True, timeout=1
            )
        self.assertEqual(self.read('runs'), '\n')

    def test_nothing_is_run_later_either_whatever_ended_the_trials(self):
        self.write('runs', '')
        script = f'echo >> {self.path("runs")}; exec env -i sleep {self.long}'
        options = Options(self.good, ['/bin/sh', '-c', script], prefixes=True, timeout=1, jobs=1)
        with Guard('crashfs-check', may_reap=False) as guard:
            program = Crashfs.second_reading()
            trace = CheckedTrace.read(options, program, guard, Progress(io.StringIO()))
            (planned,) = trace.all_planned()
            trials = Trials(trace.workplace, planned)
            with mock.patch.object(StateWorkers, 'run', run_and_stop):
                with self.assertRaises(TimeUp):
                    trials.try_state(planned.plan.listed[0])
            for _ in range(2):
                with self.assertRaises(LeftRunning):
                    trials.try_state(planned.plan.listed[0])
        self.assertEqual(self.read('runs'), '\n')

    def test_the_command_line_names_what_is_left_and_ends_with_status_3(self):
        ended = mock.Mock(side_effect=LeftRunning('left: 7'))
        with mock.patch.multiple(main, carry_out=ended, raise_on_stop_signals=mock.Mock()):
            with redirect_stderr(io.StringIO()) as printed:
                status = main.main(['--unproved', self.good, '--', 'true'])
        self.assertEqual((status, printed.getvalue()), (3, 'crashfs-check: left: 7\n'))


class Children(unittest.TestCase):
    def test_children_are_found_without_the_kernel_s_lists(self):
        with subprocess.Popen(['sleep', '600']) as child:
            try:
                self.assertIn(child.pid, descendants.child_processes())
                self.assertEqual(
                    descendants.child_processes(), descendants.children_by_parents(os.getpid())
                )
                with mock.patch('builtins.open', side_effect=self.no_lists), mock.patch.object(
                    descendants, 'has_children_lists', return_value=False
                ):
                    found = descendants.child_processes()
                self.assertIn(child.pid, found)
            finally:
                child.kill()

    def test_a_child_s_whole_group_is_killed_with_it(self):
        word = long_time()
        line = ['sh', '-c', f'sleep {word} & echo; wait']
        with subprocess.Popen(line, stdout=subprocess.PIPE, start_new_session=True) as child:
            child.stdout.readline()
            others = descendants.child_processes() - {child.pid}
            self.assertEqual(descendants.end_children(others), {})
            self.assertEqual(child.stdout.read(), b'')
        self.assertEqual(processes(word), [])

    real_open = staticmethod(open)

    def no_lists(self, path, *words, **more):
        if str(path).endswith('/children'):
            raise FileNotFoundError(path)
        return self.real_open(path, *words, **more)

    def test_a_child_that_cleans_up_is_given_time(self):
        with subprocess.Popen(
            [sys.executable, '-S', '-c', CLEANS], stdout=subprocess.PIPE, text=True
        ) as child:
            child.stdout.readline()
            others = descendants.child_processes() - {child.pid}
            self.assertEqual(descendants.end_children(others), {})
            self.assertEqual(child.stdout.read(), 'cleaned up\n')


CLEANS = """\
import time
open('/proc/self/comm', 'w').write('crashfs-guard')
print('begun', flush=True)
time.sleep(0.3)
print('cleaned up', flush=True)
"""

if __name__ == '__main__':
    unittest.main()
