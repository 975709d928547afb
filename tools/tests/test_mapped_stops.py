"""The stops of processes, at which mapped files are copied while strace's log is read."""

import signal
import unittest
from typing import Dict, List, Set
from unittest import mock

from crashfs_tools.recorder.log_stream import LogStream, PipeLines
from crashfs_tools.recorder.stopped_processes import Stop

# The threads of each process.
THREADS = {10: {10}, 20: {20, 21}, 30: {30}}
# Each of them has made a call.
CALLS = [f'{thread} close(9) = 0\n' for threads in THREADS.values() for thread in sorted(threads)]


def stopped(thread: int) -> str:
    return f'{thread} --- stopped by SIGSTOP ---\n'


class Stops(unittest.TestCase):
    """A log stream over processes that are only named: `ends` has how the wait for a thread's stop
    ends, and `threads` the threads that each process has now."""

    def setUp(self) -> None:
        self.stream = LogStream('/nowhere', mock.Mock())
        self.ends: Dict[int, Stop] = {}
        self.threads: Dict[int, Set[int]] = dict(THREADS)
        functions = {
            'read_process_of_thread': self.process_of_thread,
            'wait_until_stopped': lambda thread, process: self.ends.get(thread, Stop.ALL_STOPPED),
            'list_threads': lambda process: sorted(self.threads[process]),
        }
        for name, function in functions.items():
            self.patch(f'crashfs_tools.recorder.log_stream.stopped_processes.{name}', function)
        self.kill = mock.Mock()
        self.patch('os.kill', self.kill)
        for line in CALLS:
            self.stream.add_line(line)

    def patch(self, name: str, stand_in: object) -> None:
        patcher = mock.patch(name, stand_in)
        patcher.start()
        self.addCleanup(patcher.stop)

    def process_of_thread(self, thread: int):
        found = [process for process, threads in self.threads.items() if thread in threads]
        return found[0] if found else None

    def stop(self, thread: int, *lines: str) -> None:
        """A thread is stopped, and these lines come next."""
        pipe = PipeLines(-1)
        pipe.add_bytes(''.join(lines).encode())
        pipe.has_ended = True
        self.stream.copy_and_continue(self.stream.mapped_files, thread, pipe)

    def copies(self) -> List[object]:
        """The thread of each copy, whether it is alone, and the threads of other processes."""
        calls = self.stream.mapped_files.copy_changed_files.call_args_list
        return [
            (call.args[1], call.kwargs['is_alone'], call.kwargs['other_threads']) for call in calls
        ]

    def continued_processes(self) -> List[int]:
        for call in self.kill.call_args_list:
            self.assertEqual(call.args[1], signal.SIGCONT)
        return [call.args[0] for call in self.kill.call_args_list]

    def test_a_process_of_one_thread_is_alone(self) -> None:
        self.stop(10)
        self.assertEqual(self.copies(), [(10, True, {20, 21, 30})])
        self.assertEqual(self.continued_processes(), [10])

    def test_threads_that_have_ended_map_nothing(self) -> None:
        self.stream.add_line('21 +++ exited with 0 +++\n')
        self.stop(10)
        self.assertEqual(self.copies(), [(10, True, {20, 30})])

    def test_a_process_of_several_threads_is_not_alone_and_continued_once(self) -> None:
        self.stop(20, stopped(21))
        self.assertEqual(self.copies(), [(20, False, {10, 30})])
        self.assertEqual(self.continued_processes(), [20])
        self.assertEqual(self.stream.line_number, len(CALLS) + 1)

    def test_a_copy_after_one_while_threads_ran_is_not_alone_and_the_next_one_is(self) -> None:
        self.ends[10] = Stop.SOME_RUN
        self.stop(10)
        self.ends.clear()
        self.stop(10)
        self.stop(10)
        self.assertEqual([is_alone for _, is_alone, _ in self.copies()], [False, False, True])

    def test_a_process_that_runs_again_or_has_ended_is_not_copied(self) -> None:
        self.ends[10] = Stop.RESUMED
        self.stop(10)
        self.stop(99)
        self.assertEqual((self.copies(), self.continued_processes()), ([], []))

    def test_another_process_that_is_stopped_meanwhile_is_copied_next(self) -> None:
        self.stop(20, stopped(30), '10 close(8) = 0\n', stopped(21), stopped(10))
        self.assertEqual([thread for thread, _, _ in self.copies()], [20, 30])
        self.assertEqual(self.continued_processes(), [20, 30])
        # The last line is of a later stop.
        self.assertEqual(self.stream.line_number, len(CALLS) + 3)

    def test_a_process_that_ends_while_it_is_copied_is_no_fault(self) -> None:
        self.kill.side_effect = ProcessLookupError
        self.stop(10)
        self.assertEqual(len(self.copies()), 1)

    def test_only_the_first_fault_of_copies_and_of_the_log_is_kept(self) -> None:
        first, second = OSError(5, 'first'), OSError(5, 'second')
        self.stream.mapped_files.copy_changed_files.side_effect = [first, second]
        self.stop(10)
        self.stop(10)
        self.assertIs(self.stream.log_error, first)
        self.assertEqual(self.continued_processes(), [10, 10])


if __name__ == '__main__':
    unittest.main()
