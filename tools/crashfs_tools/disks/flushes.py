"""What makes the kernel write more to the disk before a crash than the session asked for."""

from __future__ import annotations

import os
from enum import Enum
from typing import Iterator, List, NamedTuple, Optional, Sequence

from crashfs_tools.common.whole_files import sync_directory

from .replay import UnsyncedChange, Replay

# At most so many earlier changes are tried at a moment: the last ones.
MOST_EARLIER = 8

# The changes of each file that no sync covers, in their order.
Unsynced = Sequence[Sequence[UnsyncedChange]]


class FlushKind(Enum):
    """What the kernel is made to write before a crash. The value says in a report what was on the
    disk in addition to what the session had synced."""

    NOTHING = 'nothing more written'
    LOG = 'the log written'
    BYTES = 'the bytes of all files written'
    BOTH = 'the bytes of all files and the log written'
    ONE = 'the bytes of one file and the log written'
    DIRECTORY = 'the directory synced'
    EARLIER = 'the bytes of one file written earlier, then those of the others'

    @property
    def rank(self) -> int:
        """The place of this kind in the order of all kinds, from 0 for NOTHING."""
        return list(FlushKind).index(self)


class Flush(NamedTuple):
    """A flush before a crash. `file_place` is only for ONE: which of the files with unsynced bytes
    is written, from 0. `change` is only for EARLIER: the change after which its file is written."""

    kind: FlushKind
    file_place: Optional[int] = None
    change: Optional[UnsyncedChange] = None


def possible_flushes(kind: FlushKind, unsynced: Unsynced, operation_count: int) -> Iterator[Flush]:
    """The flushes of a kind, after the first operation_count operations, that may write something
    that no other flush writes. ONE has a flush for each file with unsynced bytes, but none for a
    single file, as BOTH is the same. EARLIER has a flush for each of earlier_changes(). Other kinds
    have one, but without unsynced bytes BYTES and BOTH have none."""
    if kind is FlushKind.ONE:
        file_count = len(unsynced) if len(unsynced) > 1 else 0
        yield from (Flush(kind, file_place) for file_place in range(file_count))
    elif kind is FlushKind.EARLIER:
        yield from (
            Flush(kind, change=change) for change in earlier_changes(unsynced, operation_count)
        )
    elif unsynced or kind not in (FlushKind.BYTES, FlushKind.BOTH):
        yield Flush(kind)


def earlier_changes(unsynced: Unsynced, operation_count: int) -> List[UnsyncedChange]:
    """The changes after which EARLIER may write a file: those of files that the last operation
    didn't change, without the last change of each file; at most the MOST_EARLIER latest. Empty if
    the last operation changed no file: then nothing new in other files would be written last."""
    if not any(changes[-1].operation_count == operation_count for changes in unsynced):
        return []
    other_files = [
        changes for changes in unsynced if changes[-1].operation_count != operation_count
    ]
    return sorted(change for changes in other_files for change in changes[:-1])[-MOST_EARLIER:]


def flush_earlier_file(replay: Replay, flush: Flush) -> None:
    """To be called after each operation: if the replay's last operation is the change of a flush of
    EARLIER, it makes the kernel write the change's file. Otherwise, and for other kinds, nothing
    happens. OSError if the file can't be written."""
    if flush.change is not None and flush.change.operation_count == replay.operation_count:
        replay.write_back(replay.inode(flush.change.path))


def make_flush(replay: Replay, flush: Flush, log_file: str) -> None:
    """Makes the kernel write what a flush writes at the crash: with EARLIER the files that
    flush_earlier_file() didn't write; with DIRECTORY it only syncs the session's top; with NOTHING
    nothing. `log_file` is the path of a file on the same file system that isn't the session's: its
    fsync writes the log. OSError if anything fails."""
    kind = flush.kind
    if kind in (FlushKind.BYTES, FlushKind.BOTH, FlushKind.ONE, FlushKind.EARLIER):
        for inode in files_to_flush(replay, flush):
            replay.write_back(inode)
    if kind in (FlushKind.LOG, FlushKind.BOTH, FlushKind.ONE):
        write_log(log_file)
    if kind is FlushKind.DIRECTORY:
        sync_directory(replay.top)


def files_to_flush(replay: Replay, flush: Flush) -> List[int]:
    """The inodes of the files whose bytes a flush writes at the crash: all with unsynced bytes; for
    ONE only one of them, and for EARLIER all but the file that was written before."""
    inodes = list(replay.unsynced)
    if flush.file_place is not None:
        return [inodes[flush.file_place]]
    if flush.change is not None:
        return [inode for inode in inodes if flush.change not in replay.unsynced[inode]]
    return inodes


def write_log(log_file: str) -> None:
    """Makes the file system write its log: changes a file, which is made if it isn't there, and
    syncs it. OSError if that fails."""
    descriptor = os.open(log_file, os.O_RDWR | os.O_CREAT | os.O_CLOEXEC, 0o600)
    try:
        os.pwrite(descriptor, os.urandom(8), 0)
        os.fsync(descriptor)
    finally:
        os.close(descriptor)
