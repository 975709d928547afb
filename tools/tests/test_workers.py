"""The processes of a check that try its states: what they send, and how they end."""

import errno
import json
import os
import signal
import time
import unittest
from contextlib import contextmanager
from unittest import mock

from crashfs_tools.checker.running import runner
from crashfs_tools.checker.running.pace import TooSlow
from crashfs_tools.checker.running.runner import (
    BAD,
    GOOD,
    GOOD_OUTCOME,
    NO_ANSWER,
    LeftRunning,
    Outcome,
)
from crashfs_tools.checker.running.workers import (
    PIECE_BYTES,
    StateWorkers,
    Worker,
    fault_fields,
    fault_from_fields,
)
from crashfs_tools.checker.states.layout import Layout
from crashfs_tools.common import descendants
from crashfs_tools.common.command import Refused
from crashfs_tools.common.program import UNKNOWN_OPTION, ProgramFault

from .support import PATIENCE, long_time
from .test_check_command import processes
from .test_runner import InRuns


class OneState(Layout):
    """The same directory for each state."""

    def __init__(self, directory):
        self.directory = directory

    def states(self, wanted):
        return ((number, self.directory) for number in sorted(wanted))

    @contextmanager
    def laid_out(self, number, directory):
        yield


class Workers(InRuns):
    """Workers of this process, which try the same directory for each state."""

    def outcomes_of(self, script, wanted, *, fail_fast=False, **more):
        outcomes = {}
        checker, layout = self.checker(script, **more), OneState(self.path('state'))
        workers = StateWorkers(checker, layout, 1, outcomes.__setitem__, fail_fast=fail_fast)
        try:
            workers.run(dict.fromkeys(wanted, 0))
        finally:
            workers.end(lambda spared: None)
        return outcomes

    def test_without_a_reaper_the_mark_in_the_environment_finds_what_is_left(self):
        word = long_time()
        script = f'! pgrep -fx "sleep {word}" || exit 1; setsid sleep {word} &'
        with mock.patch('crashfs_tools.checker.running.workers.become_reaper', return_value=False):
            outcomes = self.outcomes_of(script, range(5))
        self.assertEqual([one.result for one in outcomes.values()], [GOOD] * 5)
        self.assertEqual(processes(word), [])

    def test_a_process_ends_though_nobody_reads_what_it_reports(self):
        flood = "head -c 70000 /dev/zero | tr '\\0' x; exit 1"
        workers = StateWorkers(self.checker(flood), OneState(self.path('state')), 1, mock.Mock())
        own, statuses = os.getpid(), []

        def has_ended():
            ended, status = os.waitpid(worker.process, os.WNOHANG)
            statuses.append(status)
            return ended

        try:
            # The outcome is longer than the pipe has room for.
            with mock.patch.object(runner, 'OUTPUT_CHARACTERS', 1 << 17):
                workers.start_worker([0], {0: 0})
        finally:
            if os.getpid() != own:
                os._exit(7)
        (worker,) = workers.workers
        os.close(worker.pipe)
        try:
            self.wait_until(has_ended, 'the process has ended')
        except AssertionError:
            os.kill(worker.process, signal.SIGKILL)
            raise
        self.assertEqual(statuses[-1], 0)
        os.close(workers.life_writer)
        os.close(workers.life_pipe)

    def test_an_outcome_that_comes_in_pieces_is_read_whole(self):
        flood = "head -c 70000 /dev/zero | tr '\\0' x; exit 1"
        with mock.patch.object(runner, 'OUTPUT_CHARACTERS', 1 << 17):
            outcomes = self.outcomes_of(flood, range(2))
        # Of the output so many bytes are kept; with them the line is longer than a piece.
        self.assertEqual([len(one.output) for one in outcomes.values()], [PIECE_BYTES] * 2)

    def test_with_fail_fast_the_first_failure_is_the_last_state_and_no_answer_is_none(self):
        script = 'case $CRASHFS_STATE in 0) yes;; 2) exit 1;; esac'
        for fail_fast, results in (
            (True, [NO_ANSWER, GOOD, BAD]),
            (False, [NO_ANSWER, GOOD, BAD, GOOD]),
        ):
            outcomes = self.outcomes_of(script, range(4), fail_fast=fail_fast)
            self.assertEqual([one.result for one in outcomes.values()], results)

    def test_a_pace_that_is_only_known_at_the_end_is_no_fault(self):
        on_outcome = mock.Mock(side_effect=TooSlow)
        workers = StateWorkers(self.checker('true'), OneState(self.path('state')), 1, on_outcome)
        reader, writer = os.pipe()
        os.write(writer, b'7\n')
        os.close(writer)
        workers.read_last_lines(Worker(0, reader))
        on_outcome.assert_called_once_with(7, GOOD_OUTCOME)
        for descriptor in (reader, workers.life_pipe, workers.life_writer):
            os.close(descriptor)

    def test_with_fail_fast_one_failure_is_kept_also_if_it_is_too_slow(self):
        on_outcome = mock.Mock(side_effect=TooSlow)
        layout = OneState(self.path('state'))
        workers = StateWorkers(self.checker('true'), layout, 1, on_outcome, fail_fast=True)
        lines = [b'{"state":%d,"outcome":["bad","lost",""]}' % number for number in (3, 4)]
        with self.assertRaises(TooSlow):
            workers.handle_line(lines[0])
        workers.handle_line(lines[1])
        on_outcome.assert_called_once_with(3, Outcome(BAD, 'lost'))
        for descriptor in (workers.life_pipe, workers.life_writer):
            os.close(descriptor)

    def test_an_error_of_a_path_in_bytes_is_reported(self):
        layout = OneState(self.path('state'))
        full = OSError(errno.ENOSPC, 'No space left on device', b'/link\xff')
        with mock.patch.object(layout, 'laid_out', side_effect=full):
            workers = StateWorkers(self.checker('true'), layout, 1, mock.Mock())
            with self.assertRaisesRegex(OSError, 'No space left on device') as raised:
                try:
                    workers.run({0: 0})
                finally:
                    workers.end(lambda spared: None)
        self.assertEqual(raised.exception.filename, '/link\udcff')

    def test_a_worker_that_does_not_end_in_time_is_killed(self):
        layout = OneState(self.path('state'))
        begun = self.path('begun')

        def lay_out_slowly(*_):
            os.mkdir(begun)
            time.sleep(PATIENCE)

        workers = StateWorkers(self.checker('true'), layout, 1, mock.Mock())
        with mock.patch.object(layout, 'laid_out', lay_out_slowly):
            workers.start_workers({0: 0})
        (worker,) = workers.workers
        self.wait_until(lambda: os.path.exists(begun), 'the process has begun')
        spared = mock.Mock()
        begin_time = time.monotonic()
        with mock.patch('crashfs_tools.checker.running.workers.UNDO_SECONDS', 0.2):
            workers.end(spared)
        self.assertLess(time.monotonic() - begin_time, PATIENCE / 2)
        self.assertEqual(workers.workers, [])
        self.assertRaises(ChildProcessError, os.waitpid, worker.process, 0)
        spared.assert_called_with({worker.process})

    def test_a_fault_of_a_worker_keeps_its_type_and_its_text(self):
        for fault, wanted in [
            (OSError(errno.ENOENT, 'gone', '/x'), FileNotFoundError(errno.ENOENT, 'gone', '/x')),
            (OSError(errno.EMFILE, 'too many'), OSError(errno.EMFILE, 'too many')),
            (ProgramFault(UNKNOWN_OPTION, b'line\nmore'), ProgramFault(UNKNOWN_OPTION, b'line')),
            (LeftRunning('left'), Refused('left')),
            (OSError('no number'), RuntimeError("OSError('no number')")),
            (KeyError('key'), RuntimeError("KeyError('key')")),
        ]:
            with self.subTest(repr(fault)):
                found = fault_from_fields(json.loads(json.dumps(fault_fields(fault))))
                self.assertEqual((type(found), str(found)), (type(wanted), str(wanted)))
                self.assertEqual(getattr(found, 'status', 0), getattr(fault, 'status', 0))

    def test_what_can_not_be_ended_takes_the_answer_of_all_later_states(self):
        word = long_time()
        self.write('runs', '')
        script = (
            f'echo >> ../runs; setsid sleep {word} & until pgrep -fx "sleep {word}"; do :; done'
        )
        self.addCleanup(lambda: [os.kill(one, signal.SIGKILL) for one in processes(word)])
        with mock.patch.object(descendants, 'kill_with_group'), mock.patch.object(
            descendants, 'ENDING_SECONDS', 0.3
        ):
            outcomes = self.outcomes_of(script, range(3))
        (left,) = processes(word)
        self.assertEqual([one.result for one in outcomes.values()], [NO_ANSWER] * 3)
        cause = f'a process that it left could not be ended: {left} (sleep)'
        self.assertEqual({one.cause for one in outcomes.values()}, {cause})
        self.assertEqual(self.read('runs'), '\n')


if __name__ == '__main__':
    unittest.main()
