"""What makes the kernel write more before a crash, and what is on the disk then."""

from __future__ import annotations

import unittest
from pathlib import Path
from types import SimpleNamespace
from typing import Any, Dict, Iterator, List, Sequence, Tuple
from unittest import mock

from crashfs_tools.common.entry import Entries
from crashfs_tools.common.trace_read import read_trace
from crashfs_tools.disks.disk import Crash
from crashfs_tools.disks.filesystems import KNOWN
from crashfs_tools.disks import flushes
from crashfs_tools.disks.flushes import (
    MOST_EARLIER,
    Flush,
    FlushKind,
    flush_earlier_file,
    make_flush,
    possible_flushes,
    write_log,
)
from crashfs_tools.disks.pool import DiskPool
from crashfs_tools.disks.replay import UnsyncedChange

from .support import InFolder
from .test_disks import ALL_KINDS, needs_disks

# A directory /d with a file f of 5 bytes.
START = ALL_KINDS.splitlines()[:3]


def write_of(name: str, text: str) -> str:
    """The line of a write at the begin of a file in /d."""
    return f'{{"op":"write","path":"/d/{name}","offset":0,"text":"{text}"}}'


class PossibleFlushes(unittest.TestCase):
    def test_a_lever_is_pulled_as_often_as_it_makes_sense(self) -> None:
        three = [[UnsyncedChange(done, f'/{done}')] for done in (1, 2, 3)]
        ones = [Flush(FlushKind.ONE, place) for place in range(3)]
        self.assertEqual(list(possible_flushes(FlushKind.ONE, three, 3)), ones)
        self.assertEqual(list(possible_flushes(FlushKind.ONE, three[:2], 2)), ones[:2])
        self.assertEqual(list(possible_flushes(FlushKind.ONE, three[:1], 1)), [])
        self.assertEqual(list(possible_flushes(FlushKind.BYTES, [], 0)), [])
        self.assertEqual(list(possible_flushes(FlushKind.LOG, [], 0)), [Flush(FlushKind.LOG)])

    def test_a_file_is_written_earlier_after_each_change_but_its_last(self) -> None:
        changed = [UnsyncedChange(done, '/f') for done in (1, 3, 4)]
        other = [UnsyncedChange(2, '/g'), UnsyncedChange(5, '/g')]
        found = [Flush(FlushKind.EARLIER, change=one) for one in changed[:2]]
        self.assertEqual(list(possible_flushes(FlushKind.EARLIER, [changed, other], 5)), found)
        self.assertEqual(list(possible_flushes(FlushKind.EARLIER, [changed, other], 6)), [])
        self.assertEqual(list(possible_flushes(FlushKind.EARLIER, [changed], 4)), [])
        many = [UnsyncedChange(done, '/f') for done in range(1, 20)]
        found = [Flush(FlushKind.EARLIER, change=one) for one in many[-1 - MOST_EARLIER : -1]]
        self.assertEqual(
            list(possible_flushes(FlushKind.EARLIER, [many, [UnsyncedChange(20, '/g')]], 20)), found
        )


class MadeFlushes(InFolder):
    """A replay in which /f was changed by the operation 1, and /g by 2 and 3."""

    def setUp(self) -> None:
        super().setUp()
        self.first, self.second, self.third = (
            UnsyncedChange(count, path) for count, path in ((1, '/f'), (2, '/g'), (3, '/g'))
        )
        self.written: List[int] = []
        self.replay: Any = SimpleNamespace(
            top='/top',
            operation_count=3,
            unsynced={7: [self.first], 8: [self.second, self.third]},
            inode={'/f': 7, '/g': 8}.__getitem__,
            write_back=self.written.append,
        )

    def test_each_kind_writes_what_it_says(self) -> None:
        for flush, written, has_log, has_directory in (
            (Flush(FlushKind.NOTHING), [], False, False),
            (Flush(FlushKind.LOG), [], True, False),
            (Flush(FlushKind.BYTES), [7, 8], False, False),
            (Flush(FlushKind.BOTH), [7, 8], True, False),
            (Flush(FlushKind.ONE, file_place=0), [7], True, False),
            (Flush(FlushKind.ONE, file_place=1), [8], True, False),
            (Flush(FlushKind.DIRECTORY), [], False, True),
            (Flush(FlushKind.EARLIER, change=self.second), [7], False, False),
        ):
            self.written.clear()
            with self.subTest(flush=flush), mock.patch.multiple(
                flushes, write_log=mock.DEFAULT, sync_directory=mock.DEFAULT
            ) as calls:
                make_flush(self.replay, flush, '/log')
                self.assertEqual(self.written, written)
                self.assertEqual(calls['write_log'].call_args_list, [mock.call('/log')] * has_log)
                synced = calls['sync_directory'].call_args_list
                self.assertEqual(synced, [mock.call('/top')] * has_directory)

    def test_a_file_is_written_earlier_only_after_its_change(self) -> None:
        for flush, written in (
            (Flush(FlushKind.EARLIER, change=self.second), []),
            (Flush(FlushKind.EARLIER, change=self.third), [8]),
            (Flush(FlushKind.BYTES), []),
        ):
            self.written.clear()
            flush_earlier_file(self.replay, flush)
            self.assertEqual(self.written, written, flush)

    def test_the_file_that_writes_the_log_is_made_and_changed(self) -> None:
        path = self.path('log')
        write_log(path)
        before = Path(path).read_bytes()
        write_log(path)
        self.assertEqual(len(before), 8)
        self.assertNotEqual(Path(path).read_bytes(), before)

    def test_kinds_that_write_least_come_first(self) -> None:
        self.assertEqual([kind.rank for kind in FlushKind], list(range(len(FlushKind))))
        self.assertEqual(FlushKind.NOTHING.rank, 0)


@needs_disks
class FlushesOnDisk(InFolder):
    def crashes(
        self, lines: List[str], flush_kinds: Sequence[FlushKind] = tuple(FlushKind)
    ) -> Iterator[Tuple[Entries, Crash]]:
        """The trees that crashes of a session on ext4 leave, each with its crash."""
        trace = read_trace('\n'.join([*START, *lines]))
        pool = DiskPool([KNOWN['ext4']], trace, self.path(''), flush_kinds)
        for one in pool.disks(1, lambda *_: None)['ext4']:
            yield from ((one.tree, crash) for crash in one.crashes)

    def test_a_rename_that_is_not_synced_is_lost_unless_the_log_is_written(self) -> None:
        lines = [
            '{"op":"rename","from":"/d/f","to":"/d/g"}',
            '{"op":"say","text":"renamed"}',
        ]
        trees: Dict[FlushKind, bool] = {
            crash.flush_kind: '/d/g' in tree
            for tree, crash in self.crashes(lines)
            if crash.moment.most_says == 1
        }
        self.assertEqual(trees[FlushKind.NOTHING], False)
        self.assertEqual(trees[FlushKind.LOG], True)

    def test_a_lever_works_without_the_ones_before_it(self) -> None:
        found = [
            (tree['/d/f'].data, crash.flush_kind)
            for tree, crash in self.crashes([write_of('f', 'HELLO')], [FlushKind.BYTES])
        ]
        self.assertEqual(found, [(b'HELLO', FlushKind.BYTES)])

    def test_a_file_has_its_bytes_of_an_earlier_line_and_another_its_last(self) -> None:
        lines = [
            '{"op":"creat","path":"/d/g","owner":"root","group":"root","mode":"644"}',
            write_of('g', 'earth'),
            '{"op":"sync"}',
            *(write_of('f', 'JE'), write_of('f', 'JELLY'), write_of('g', 'WORLD')),
        ]
        found = [
            (tree['/d/f'].data, tree['/d/g'].data, crash.moment.operation_count)
            for tree, crash in self.crashes(lines, [FlushKind.EARLIER])
        ]
        self.assertEqual(found, [(b'JEllo', b'WORLD', 6)])


if __name__ == '__main__':
    unittest.main()
