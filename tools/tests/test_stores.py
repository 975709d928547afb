"""What copies of mapped files show, and where it is in the trace."""

import unittest
from typing import List, Optional, Sequence
from unittest import mock

from crashfs_tools.common.sparse import PAGE_BYTES
from crashfs_tools.common.trace import Start
from crashfs_tools.recorder.arguments import NO_DESCRIPTOR
from crashfs_tools.recorder.live_tree import Node
from crashfs_tools.recorder.mapped_files import NO_THREAD, FileCopies, FileCopy
from crashfs_tools.recorder.mapped_stores import (
    add_stores,
    copies_by_call,
    differing_range,
    unsure_copies,
)
from crashfs_tools.recorder.recording import Recording
from crashfs_tools.recorder.strace_log import Call

from .support import recording_of, short

START = [Start('/f', 'u', 'u', 0o644, bytes(8)), Start('/g', 'u', 'u', 0o644, bytes(8))]
MAP = 'mmap(NULL, 8, PROT_READ|PROT_WRITE, MAP_SHARED'
# Two processes map a file each, and the parent syncs its own.
LOG = [
    '1 openat(AT_FDCWD</d>, "f", O_RDWR) = 3</d/f>',
    '1 openat(AT_FDCWD</d>, "g", O_RDWR) = 4</d/g>',
    '1 clone(child_stack=NULL, flags=CLONE_CHILD_SETTID|SIGCHLD) = 2',
    f'1 {MAP}, 3</d/f>, 0 <unfinished ...>',
    f'2 {MAP}, 4</d/g>, 0) = 0x7f0000001000',
    '1 <... mmap resumed>) = 0x7f0000001000',
    '2 --- stopped by SIGSTOP ---',
    '1 msync(0x7f0000001000, 8, MS_SYNC) = 0',
]


FAILED = LOG[:1] + [
    f'1 {MAP}, 3</d/f>, 0) = 0x7f0000001000',
    '1 unlink("none") = -1 ENOENT (No such file or directory)',
    '1 msync(0x7f0000001000, 8, MS_SYNC) = 0',
]


def after_copies(copies: List[FileCopy], log: Sequence[str] = tuple(LOG)) -> Recording:
    numbers = {
        place: 'fg'.index(line[line.index('/d/') + 3])
        for place, line in enumerate(log, 1)
        if MAP in line
    }
    return recording_of(list(log), START, copies=FileCopies(copies, numbers))


class Differences(unittest.TestCase):
    """The stores that a copy of a mapped file shows."""

    def add(self, node: Node, data: bytes, doubt: Optional[str] = None) -> mock.Mock:
        node.names.add('/f')
        files = mock.Mock()
        files.write_bytes.side_effect = lambda node, offset, data: node.write(offset, data)
        add_stores(files, node, data, doubt)
        return files

    def test_the_smallest_range_has_all_that_differs(self) -> None:
        for old, new, wanted in (
            (b'abcd', b'abcd', (0, 0)),
            (b'', b'', (0, 0)),
            (b'abcd', b'aBcD', (1, 4)),
            (b'abcd', b'Abcd', (0, 1)),
            (b'abcd', b'abcD', (3, 4)),
        ):
            self.assertEqual(differing_range(old, new), wanted)

    def test_each_page_that_differs_has_a_write_of_its_own(self) -> None:
        node = Node.file(0o644, bytes(3 * PAGE_BYTES))
        new = bytearray(3 * PAGE_BYTES)
        new[7:9] = b'ab'
        new[2 * PAGE_BYTES + 1] = 1
        for doubt, reports in ((None, 0), ('not sure', 2)):
            node = Node.file(0o644, bytes(3 * PAGE_BYTES))
            files = self.add(node, bytes(new), doubt)
            self.assertEqual(
                files.write_bytes.call_args_list,
                [mock.call(node, 7, b'ab'), mock.call(node, 2 * PAGE_BYTES + 1, b'\1')],
            )
            self.assertEqual(files.recording.report.call_count, reports)

    def test_a_copy_of_another_length_is_only_reported(self) -> None:
        files = self.add(Node.file(0o644, b'1'), b'22')
        files.write_bytes.assert_not_called()
        files.recording.report.assert_called_once_with(
            'a copy of the mapped file has another size than is known', '/f'
        )

    def test_a_file_whose_bytes_are_not_followed_gets_no_stores(self) -> None:
        files = self.add(Node.unknown(), b'22')
        files.write_bytes.assert_not_called()
        files.recording.report.assert_not_called()

    def test_no_more_is_written_after_a_write_that_the_trace_can_not_have(self) -> None:
        node = Node.file(0o644, bytes(2 * PAGE_BYTES))
        files = mock.Mock()
        files.write_bytes.side_effect = lambda node, offset, data: node.drop_bytes()
        add_stores(files, node, b'1' * 2 * PAGE_BYTES)
        self.assertEqual(files.write_bytes.call_count, 1)


def call(thread: int, line: int, name: str, result: int = 0) -> Call:
    return Call(thread, name, [], result, NO_DESCRIPTOR, line, line)


def interrupted(thread: int, line: int, name: str) -> Call:
    return Call(thread, name, [], -1, NO_DESCRIPTOR, line, line, is_interrupted=True)


class CallsOfCopies(unittest.TestCase):
    """The call before which the stores that a copy shows were made."""

    def assert_call(self, calls: List[Call], copies: List[FileCopy], wanted: Call) -> None:
        """The last copy is of this call; in the trace the calls are in the opposite order."""
        found = copies_by_call(calls, calls[::-1], FileCopies(copies))
        self.assertEqual(found, {id(wanted): copies[-1:]})

    def test_stores_of_a_thread_that_is_alone_are_before_its_last_call(self) -> None:
        calls = [call(1, 2, 'write'), call(2, 3, 'fsync'), call(1, 5, 'write')]
        self.assert_call(calls, [FileCopy(4, 1, True, {0: b'a'})], calls[0])
        self.assert_call(calls, [FileCopy(4, 2, True, {0: b'a'})], calls[1])

    def test_stores_of_one_of_several_threads_are_before_the_first_stopping_call(self) -> None:
        calls = [
            call(1, 1, 'write'),
            call(1, 2, 'write'),
            call(2, 3, 'fsync'),
            call(3, 4, 'openat'),
        ]
        earlier = FileCopy(1, 1, False, {})
        copy = FileCopy(4, 1, False, {0: b'a'})
        self.assert_call(calls, [earlier, copy], calls[2])
        # No stopping call ended since the earlier copy.
        earlier = FileCopy(3, 2, False, {})
        self.assert_call(calls, [earlier, copy], calls[1])

    def test_a_thread_without_a_call_has_the_newest_call(self) -> None:
        calls = [call(1, 1, 'write'), call(2, 2, 'openat')]
        self.assert_call(calls, [FileCopy(2, 3, True, {0: b'a'})], calls[1])

    def test_copies_without_files_and_the_last_copy_are_of_no_call(self) -> None:
        calls = [call(1, 1, 'write')]
        copies = [FileCopy(1, 1, True, {}), FileCopy(2, NO_THREAD, True, {0: b'a'})]
        self.assertEqual(copies_by_call(calls, calls, FileCopies(copies)), {})


class UnsureCopies(unittest.TestCase):
    def test_a_call_at_which_no_thread_was_stopped_makes_a_copy_unsure(self) -> None:
        send, write = call(1, 1, 'sendfile', 5), call(1, 2, 'write', 5)
        for calls, is_unsure in (
            ([send, write], True),
            # Of another process.
            ([call(2, 1, 'splice', 5), write], True),
            # The restart of one at which the thread was stopped.
            ([interrupted(1, 0, 'sendfile'), send, write], False),
            ([interrupted(2, 0, 'sendfile'), send, write], True),
            # The thread was stopped at this one.
            ([send], False),
            # They did nothing.
            ([call(1, 1, 'sendfile', 0), call(1, 2, 'copy_file_range', -1), write], False),
            # At these a thread is always stopped.
            ([call(1, 1, 'vmsplice', 5), write], False),
        ):
            with self.subTest([each.name for each in calls]):
                copies = [FileCopy(0, 1, True, {}), FileCopy(2, 1, True, {0: b'a'})]
                wanted = {id(copies[1])} if is_unsure else set()
                self.assertEqual(unsure_copies(calls, FileCopies(copies)), wanted)

    def test_the_copy_at_the_end_is_unsure_after_such_a_call(self) -> None:
        copy = FileCopy(2, NO_THREAD, True, {0: b'a'})
        calls = [call(1, 1, 'sendfile', 5)]
        self.assertEqual(unsure_copies(calls, FileCopies([copy])), {id(copy)})


class Stores(unittest.TestCase):
    def test_a_copy_before_the_mapping_s_place_is_after_the_mapping(self):
        # The child's call, of which the copy was taken, is before the parent's in the trace.
        recording = after_copies(
            [FileCopy(7, 2, True, {0: b'parent\0\0', 1: b'child\0\0\0'}, {0, 1})]
        )
        self.assertEqual(
            [short(one) for one in recording.trace.operations],
            ['write /g 0 child', 'write /f 0 parent', 'fsyncrange /f 0 4096'],
        )
        troubles = list(recording.troubles.values())
        self.assertEqual({trouble.where for trouble in troubles}, {'/f', '/g'})
        for trouble in troubles:
            self.assertIn('while other threads or processes ran', str(trouble))

    def test_a_copy_is_after_its_process_s_last_call(self):
        # The parent was copied from between the child's call and the child's stop.
        recording = after_copies(
            [FileCopy(6, 1, True, {}), FileCopy(7, 2, True, {0: b'parent\0\0'}, {0})]
        )
        self.assertEqual(
            [short(one) for one in recording.trace.operations],
            ['write /f 0 parent', 'fsyncrange /f 0 4096'],
        )
        self.assertEqual(len(list(recording.troubles.values())), 1)

    def test_an_older_copy_doesn_t_undo_a_newer_one(self):
        # The parent's copy comes first, but the parent's call is after the child's in the trace.
        for older in (bytes(8), b'old\0\0\0\0\0'):
            recording = after_copies(
                [FileCopy(6, 1, True, {0: older}), FileCopy(7, 2, True, {0: b'parent\0\0'}, {0})]
            )
            self.assertEqual(
                [short(one) for one in recording.trace.operations],
                ['write /f 0 parent', 'fsyncrange /f 0 4096'],
            )
            self.assertEqual(len(list(recording.troubles.values())), 1)

    def test_a_copy_after_a_call_that_failed_counts(self):
        recording = after_copies([FileCopy(3, 1, True, {0: b'row' + bytes(5)})], FAILED)
        self.assertEqual(
            [short(one) for one in recording.trace.operations],
            ['write /f 0 row', 'fsyncrange /f 0 4096'],
        )
        self.assertEqual(list(recording.troubles.values()), [])

    def test_a_sure_copy_is_before_its_call(self):
        recording = after_copies([FileCopy(8, 1, True, {0: b'parent\0\0'})])
        self.assertEqual(
            [short(one) for one in recording.trace.operations],
            ['write /f 0 parent', 'fsyncrange /f 0 4096'],
        )
        self.assertEqual(list(recording.troubles.values()), [])

    def test_a_copy_of_a_file_that_its_call_changes_has_the_change(self):
        copies = [FileCopy(3, 1, True, {0: b'row\0'})]
        for call in ('truncate("f", 4)', 'ftruncate(3</d/f>, 4)'):
            recording = after_copies(copies, [*FAILED[:2], f'1 {call} = 0'])
            self.assertEqual(
                [short(one) for one in recording.trace.operations],
                ['truncate /f 4', 'write /f 0 row'],
            )
            self.assertEqual(recording.troubles, {})

    def test_a_copy_before_the_first_call_shows_no_store(self):
        recording = after_copies([FileCopy(0, 1, True, {0: b'parent\0\0'})])
        self.assertEqual(
            [short(one) for one in recording.trace.operations], ['fsyncrange /f 0 4096']
        )

    def test_what_the_last_copy_shows_is_after_the_last_call(self):
        recording = after_copies([FileCopy(8, 0, True, {0: b'parent\0\0'})])
        self.assertEqual(
            [short(one) for one in recording.trace.operations],
            ['fsyncrange /f 0 4096', 'write /f 0 parent'],
        )
        self.assertEqual(list(recording.troubles.values()), [])

    def test_a_mapped_file_that_could_not_be_opened_is_reported_after_all_calls(self):
        copies = FileCopies(unopened_paths=['/m'])
        troubles = recording_of(LOG, START, copies=copies).troubles.values()
        self.assertEqual(
            [str(trouble) for trouble in troubles],
            ['/m: mapped, and it could not be opened to be followed'],
        )


if __name__ == '__main__':
    unittest.main()
