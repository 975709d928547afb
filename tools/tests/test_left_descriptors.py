"""What fails leaves no descriptor of this process open."""

import errno
import os
import tempfile
import unittest
from contextlib import contextmanager, redirect_stdout
from unittest import mock

from crashfs_tools.checker.running.workers import StateWorkers
from crashfs_tools.common import removal
from crashfs_tools.common.command import Refused
from crashfs_tools.common.forked_reading import ForkedReading
from crashfs_tools.common.guard import Guard
from crashfs_tools.common.program import output_of_started
from crashfs_tools.common.streams import flushed_output
from crashfs_tools.disks import loops

from .support import EXAMPLES


def open_descriptors():
    """The numbers of the open descriptors, and the lowest free one."""
    return sorted(map(int, os.listdir('/proc/self/fd')))


@contextmanager
def open_folder(path):
    """The descriptor of a directory, which is open within the `with`."""
    descriptor = os.open(path, removal.FOLDER)
    try:
        yield descriptor
    finally:
        os.close(descriptor)


def error_after(calls, function):
    """A function that fails with EMFILE after so many calls."""
    results = iter([function] * calls)

    def call(*arguments):
        result = next(results, None)
        if result is None:
            raise OSError(errno.EMFILE, os.strerror(errno.EMFILE))
        return result(*arguments)

    return call


def start_reading():
    ForkedReading(['list'])


def start_guard():
    Guard('guard', may_reap=False).__enter__()


@contextmanager
def one_worker():
    """A function that starts a process of a check, which ends at once."""
    workers = StateWorkers(mock.Mock(), mock.Mock(), 1, mock.Mock())
    try:
        yield lambda: workers.start_worker([0], {0: 0})
    finally:
        workers.end(lambda spared: None)


class LeftDescriptors(unittest.TestCase):
    def setUp(self):
        # Modules that the first reading imports may keep files open.
        output_of_started(ForkedReading(['list', '--trace', str(EXAMPLES / 'start.trace')]))
        self.descriptors = open_descriptors()

    def assert_fails_and_leaves_none(self, start, error_number):
        with self.assertRaises(OSError) as raised:
            start()
        self.assertEqual(raised.exception.errno, error_number)
        self.assertEqual(open_descriptors(), self.descriptors)

    def test_a_failed_fork_leaves_no_pipe_open(self):
        no_process = OSError(errno.EAGAIN, os.strerror(errno.EAGAIN))
        for start in (start_reading, start_guard):
            with self.subTest(start=start.__name__), mock.patch('os.fork', side_effect=no_process):
                self.assert_fails_and_leaves_none(start, errno.EAGAIN)

    def test_a_worker_that_can_not_be_forked_leaves_no_pipe_open(self):
        no_process = OSError(errno.EAGAIN, os.strerror(errno.EAGAIN))
        with one_worker() as start, mock.patch('os.fork', side_effect=no_process):
            self.descriptors = open_descriptors()
            self.assert_fails_and_leaves_none(start, errno.EAGAIN)

    def test_a_failed_pipe_leaves_no_other_pipe_open(self):
        for start in (start_reading, start_guard):
            with self.subTest(start=start.__name__):
                with mock.patch('os.pipe', error_after(1, os.pipe)):
                    self.assert_fails_and_leaves_none(start, errno.EMFILE)

    def test_an_image_that_is_not_there_leaves_no_device_open(self):
        with mock.patch.object(loops, 'LOOP_CONTROL', os.devnull):
            self.assert_fails_and_leaves_none(
                lambda: loops.open_loop_device('/nonexistent'), errno.ENOENT
            )

    def test_an_attached_device_is_the_one_thing_open(self):
        attempts = []

        def open_with_image(path, image_fd):
            attempts.append((path, os.fstat(image_fd).st_rdev))
            return os.open(os.devnull, os.O_RDONLY) if len(attempts) == 3 else None

        with mock.patch.object(loops, 'LOOP_CONTROL', os.devnull), mock.patch.object(
            loops.fcntl, 'ioctl', return_value=7
        ), mock.patch.object(loops, 'open_with_image', open_with_image):
            device, path = loops.open_loop_device(os.devnull)
            os.close(device)
            self.assertEqual(open_descriptors(), self.descriptors)
            self.assertEqual(path, '/dev/loop7')
            self.assertEqual(attempts, [(path, os.stat(os.devnull).st_rdev)] * 3)
            with self.assertRaisesRegex(Refused, '^--disks: no loop device is free$'):
                attempts *= 2
                loops.open_loop_device(os.devnull)
            self.assertEqual(len(attempts), 6 + loops.TRIES)
        self.assertEqual(open_descriptors(), self.descriptors)

    def test_a_directory_that_can_not_be_changed_is_closed(self):
        not_permitted = OSError(errno.EPERM, os.strerror(errno.EPERM))
        with tempfile.TemporaryDirectory() as trash:
            os.mkdir(f'{trash}/d', 0o500)
            with open_folder(trash) as trash_fd, mock.patch('os.fchmod', side_effect=not_permitted):
                self.descriptors = open_descriptors()
                empty_directory = removal.Removal(trash_fd).empty_directory
                self.assert_fails_and_leaves_none(lambda: empty_directory('d'), errno.EPERM)

    def test_an_output_that_can_not_be_written_leaves_no_null_device_open(self):
        with open('/dev/full', 'w') as full, redirect_stdout(full):
            descriptors = open_descriptors()
            with self.assertRaises(OSError) as raised, flushed_output():
                print('text')
            self.assertEqual(open_descriptors(), descriptors)
            print('later output is discarded', flush=True)
        self.assertEqual(raised.exception.errno, errno.ENOSPC)
        self.assertEqual(raised.exception.filename, 'standard output')

    def test_a_closed_output_gets_the_null_device_and_keeps_it(self):
        with open('/dev/null', 'w') as closed, redirect_stdout(closed):
            os.close(closed.fileno())
            with self.assertRaises(OSError) as raised, flushed_output():
                print('text')
            self.assertTrue(os.path.samefile(f'/proc/self/fd/{closed.fileno()}', os.devnull))
            print('later output is discarded', flush=True)
        self.assertEqual(raised.exception.errno, errno.EBADF)
        self.assertEqual(open_descriptors(), self.descriptors)


if __name__ == '__main__':
    unittest.main()
