"""Processes that make disks: their results, their faults, and that they end however they are
stopped."""

from __future__ import annotations

import os
import random
import signal
import subprocess
import sys
import time
import unittest
from pathlib import Path
from typing import List

from crashfs_tools.common.command import Refused
from crashfs_tools.common.signals import time_limit
from crashfs_tools.common.trace_read import read_trace
from crashfs_tools.disks import filesystems
from crashfs_tools.disks.pool import DiskPool
from crashfs_tools.disks.workers import Fault, DiskWorkers

from .support import EXAMPLES, FAKE, TOOLS, InFolder
from .test_disks import loops, needs_disks
from .test_disks_check import images

CONFIG = EXAMPLES / 'config' / 'config.trace'
# A stop that takes longer has hung.
MOST_SECONDS = 60
KILLS, AT_ONCE = 50, 5


def children() -> List[int]:
    text = Path(f'/proc/self/task/{os.getpid()}/children').read_text(encoding='ascii')
    return [int(word) for word in text.split()]


class Stop(Exception):
    """What a signal raises in this process."""


class Results(unittest.TestCase):
    def setUp(self) -> None:
        self.before = children()
        self.addCleanup(self.assert_no_child_is_left)

    def assert_no_child_is_left(self) -> None:
        self.assertEqual(children(), self.before)

    def test_each_task_is_done_once_by_several_processes(self) -> None:
        def result(task: int) -> List[int]:
            time.sleep(0.01)
            return [task, os.getpid()]

        with DiskWorkers(3, lambda: None, result) as workers:
            found = list(workers.results(list(range(20))))
        self.assertEqual(sorted(task for task, _ in found), list(range(20)))
        self.assertEqual(len({process for _, process in found}), 3)

    def test_there_are_no_more_processes_than_tasks(self) -> None:
        with DiskWorkers(9, lambda: None, abs) as workers:
            self.assertEqual(sorted(workers.results([-1, 2])), [1, 2])
            self.assertEqual(len(workers.processes), 2)

    def test_what_a_worker_raises_is_raised_here(self) -> None:
        def refuse(task: int) -> int:
            raise Refused(f'no {task}')

        with self.assertRaisesRegex(Refused, 'no 7'), DiskWorkers(
            1, lambda: None, refuse
        ) as workers:
            list(workers.results([7]))
        with self.assertRaisesRegex(Fault, 'ZeroDivisionError'):
            with DiskWorkers(1, lambda: None, lambda task: 1 // task) as divided:
                list(divided.results([0]))

    def test_a_fault_at_the_beginning_is_raised_here(self) -> None:
        def begin() -> None:
            raise Refused('no mounts')

        with self.assertRaisesRegex(Refused, 'no mounts'), DiskWorkers(2, begin, abs) as workers:
            list(workers.results([1, 2, 3]))

    def test_a_worker_that_is_killed_is_a_fault(self) -> None:
        def end(task: int) -> None:
            os.kill(os.getpid(), signal.SIGKILL)

        with self.assertRaisesRegex(Refused, 'was killed'):
            with DiskWorkers(2, lambda: None, end) as workers:
                list(workers.results([1, 2, 3, 4]))

    def test_a_stop_ends_workers_that_wait_and_that_work(self) -> None:
        begun = time.monotonic()
        with self.assertRaises(Stop), DiskWorkers(3, lambda: None, time.sleep) as workers:
            for _ in workers.results([0, 600, 600]):
                raise Stop
        self.assertLess(time.monotonic() - begun, MOST_SECONDS)


@needs_disks
class Stops(InFolder):
    def test_a_signal_to_all_processes_ends_a_pool(self) -> None:
        """At the last task one worker waits for a further one: a lock that it held then would be
        held forever."""
        trace = read_trace(CONFIG.read_text('utf-8'))
        pool = DiskPool([filesystems.KNOWN['ext4']], trace, self.path(''))
        before = set(children())

        def on_step(done: int, of: int) -> None:
            if done == of:
                for child in set(children()) - before:
                    os.kill(child, signal.SIGTERM)
                raise Stop

        with self.assertRaises(Stop), time_limit(2 * MOST_SECONDS):
            pool.disks(3, on_step)
        self.assertEqual(set(children()), before)

    def test_a_check_that_is_stopped_at_any_moment_ends_and_leaves_nothing(self) -> None:
        before = images()
        drawn = random.Random(5)
        for _ in range(KILLS // AT_ONCE):
            checks = [self.check() for _ in range(AT_ONCE)]
            for check in checks:
                time.sleep(drawn.random())
                if check.poll() is None:
                    os.killpg(check.pid, drawn.choice((signal.SIGTERM, signal.SIGINT)))
            for check in checks:
                check.communicate(timeout=MOST_SECONDS)
        self.wait_until(lambda: not images() - before, 'the images are gone')
        self.wait_until(lambda: 'crashfs-disks-' not in loops(), 'the loop devices are free')

    def check(self) -> 'subprocess.Popen[bytes]':
        """A check in a group of processes of its own."""
        words = ['--crashfs', FAKE, '--jobs', '2', '--disks', 'ext4', str(CONFIG), '--', 'true']
        check = subprocess.Popen(
            [sys.executable, '-S', str(TOOLS / 'crashfs-check'), *words],
            cwd=self.folder,
            stdin=subprocess.DEVNULL,
            stdout=subprocess.PIPE,
            stderr=subprocess.PIPE,
            start_new_session=True,
        )
        self.addCleanup(end_group, check)
        return check


def end_group(check: 'subprocess.Popen[bytes]') -> None:
    """Ends what a test that failed has left."""
    if check.poll() is None:
        os.killpg(check.pid, signal.SIGKILL)
        check.communicate()


if __name__ == '__main__':
    unittest.main()
