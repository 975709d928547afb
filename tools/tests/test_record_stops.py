"""How a recording ends: by signals to the command and to the recorder."""

import ctypes
import os
import platform
import signal
import time
import unittest
from unittest import mock

from crashfs_tools.recorder import strace_run

from .support import PATIENCE, needs_strace
from .test_record_command import InRecordings

# The call that signals one thread.
TGKILL = 234
# A process of its own session that has nothing in its environment.
UNMARKED = """setsid env -i sh -c 'echo $$ > ../pid; exec sleep 300'"""


class Handlers(unittest.TestCase):
    def test_signals_get_their_old_handlers_back_after_an_error(self):
        run = strace_run.StraceRun([], mock.Mock(), mock.Mock(), mock.Mock())
        old_handler = signal.getsignal(signal.SIGTERM)
        with self.assertRaises(OSError), run.signals_handled():
            self.assertEqual(signal.getsignal(signal.SIGTERM), run.handle_signal)
            raise OSError
        self.assertIs(signal.getsignal(signal.SIGTERM), old_handler)


@needs_strace
class Stops(InRecordings):
    def test_a_command_that_a_signal_ends_is_recorded(self):
        for name in ('KILL', 'TERM', 'SEGV'):
            with self.subTest(name):
                ran = self.record_aloud(
                    f'echo 2 > new; echo told; kill -{name} $$', '--keep-log', 'log'
                )
                self.assertEqual((ran.returncode, ran.stdout), (3, 'told\n'))
                self.assertIn(f'COMMAND was ended by SIG{name}\n', ran.stderr)
                self.assertIn(f'+++ killed by SIG{name}', self.read('log'))
                self.assertEqual(len(self.operations()), 3)

    def test_a_stop_ends_the_command_and_what_was_recorded_is_written(self):
        for number in (signal.SIGINT, signal.SIGTERM):
            with self.subTest(number):
                child = self.start(
                    'crashfs-record',
                    'd',
                    'out.trace',
                    '--',
                    'sh',
                    '-c',
                    'echo $$ > ../pid; echo 2 > new; echo told; ' 'echo 1 > ../after; sleep 60',
                )
                pid = self.pid_of('pid', child)
                self.wait_until(
                    lambda: os.path.exists(self.path('after')), 'the line is told', child
                )
                child.send_signal(number)
                _, err = child.communicate(timeout=PATIENCE)
                self.assertEqual(child.returncode, 0, err)
                self.assert_gone(pid)
                self.assertIn('1 acknowledged line', err)
                self.assert_nothing_left()
                os.unlink(self.path('pid'))
                os.unlink(self.path('after'))

    @unittest.skipUnless(platform.machine() == 'x86_64', 'tgkill has another number')
    def test_a_stop_that_another_thread_takes_is_passed_on(self):
        child = self.start_recording('echo $$ > ../pid; exec sleep 300')
        pid = self.pid_of('pid', child)
        (other,) = [
            int(one) for one in os.listdir(f'/proc/{child.pid}/task') if int(one) != child.pid
        ]
        time.sleep(0.5)  # The first thread waits by now for standard output.
        ctypes.CDLL(None).syscall(TGKILL, child.pid, other, signal.SIGTERM)
        _, err = child.communicate(timeout=PATIENCE)
        self.assertEqual(child.returncode, 0, err)
        self.assert_gone(pid)

    def test_a_second_stop_kills_a_command_that_goes_on(self):
        script = 'trap "echo 3 > ../trapped" TERM; echo $$ > ../pid; while :; do sleep 0.1; done'
        child = self.start('crashfs-record', '--no-say', 'd', 'out.trace', '--', 'sh', '-c', script)
        pid = self.pid_of('pid', child)
        child.terminate()
        self.wait_until(
            lambda: os.path.exists(self.path('trapped')), 'COMMAND has the signal', child
        )
        time.sleep(strace_run.SAME_SIGNAL_SECONDS)
        child.terminate()
        _, err = child.communicate(timeout=PATIENCE)
        self.assertEqual(child.returncode, 3)
        self.assertIn('COMMAND was ended by SIGKILL', err)
        self.assert_gone(pid)

    def test_a_stop_reaches_a_command_that_drops_its_environment(self):
        child = self.start(
            'crashfs-record', '--no-say', 'd', 'out.trace', '--', 'sh', '-c', f'exec {UNMARKED}'
        )
        pid = self.pid_of('pid', child)
        child.terminate()
        _, err = child.communicate(timeout=PATIENCE)
        self.assertEqual(child.returncode, 0, err)
        self.assertFalse(os.path.exists(f'/proc/{pid}'))

    def test_what_strace_does_not_follow_is_ended_too(self):
        script = f'{UNMARKED} & until test -s ../pid; do :; done; kill -9 $PPID; wait'
        child = self.start('crashfs-record', '--no-say', 'd', 'out.trace', '--', 'sh', '-c', script)
        pid = self.pid_of('pid', child)
        _, err = child.communicate(timeout=PATIENCE)
        self.assertEqual(child.returncode, 1, err)
        self.assertIn("strace's log ends before COMMAND did", err)
        self.assertFalse(os.path.exists(f'/proc/{pid}'))
        self.assert_nothing_left()

    def test_a_kill_leaves_nothing(self):
        child = self.start(
            'crashfs-record', 'd', 'out.trace', '--', 'sh', '-c', 'echo $$ > ../pid; sleep 60'
        )
        pid = self.pid_of('pid', child)
        child.kill()
        child.communicate(timeout=PATIENCE)
        self.assert_gone(pid)
        self.wait_until(lambda: os.listdir(self.temporary) == [], 'nothing left')


if __name__ == '__main__':
    unittest.main()
