"""Sync points: what each of them makes durable, and whether it writes the log of a file system that
has one."""

from __future__ import annotations

from dataclasses import dataclass
from typing import List

from .micro import ChangeSize, CreateEntry, MicroOperation, SetFileRights, WriteBlock
from .names import DIRECTORY, Inode, is_file


@dataclass
class SyncPoint:
    """A sync of everything, which comes before the micro-operation at `place`, and after those at
    lower places. A sync point of one file or directory is of a subclass, and has its number."""

    place: int

    def covers(self, operation: MicroOperation) -> bool:
        """Whether the sync makes a micro-operation durable, which must come before the sync: the
        places aren't compared."""
        return True

    def is_fresh(self, operations_since: List[MicroOperation]) -> bool:
        """Whether the sync writes the log of the file system, if there is a log. `operations_since`
        has the micro-operations since the sync point before this one, of whatever file."""
        return True


@dataclass
class FileSync(SyncPoint):
    """An fsync of a file, by its number."""

    number: int

    def covers(self, operation: MicroOperation) -> bool:
        """See SyncPoint.covers: true for a change of the file's size, bytes or rights, false for a
        change of its names."""
        return operation.file_number == self.number

    def is_fresh(self, operations_since: List[MicroOperation]) -> bool:
        """See SyncPoint.is_fresh: whether one of operations_since changed, made, linked, moved,
        removed or replaced the file."""
        return any(
            operation.file_number == self.number
            or any(is_file(node, self.number) for node in operation.handled_inodes)
            for operation in operations_since
        )


class DataSync(FileSync):
    """An fdatasync of a file, by its number: of its sizes and blocks, but not of its rights. It
    writes the log only after a new size, or if the file is new."""

    def covers(self, operation: MicroOperation) -> bool:
        """See SyncPoint.covers: true for a change of the file's size or bytes."""
        return super().covers(operation) and not isinstance(operation, SetFileRights)

    def is_fresh(self, operations_since: List[MicroOperation]) -> bool:
        """See SyncPoint.is_fresh: whether one of operations_since made the file, or gave it a new
        size. Writes and other names don't count."""
        return any(
            isinstance(operation, ChangeSize)
            and operation.file_number == self.number
            or isinstance(operation, CreateEntry)
            and is_file(operation.node, self.number)
            for operation in operations_since
        )


@dataclass
class RangeSync(DataSync):
    """A sync of a part of a file, by the file's number, the part's offset and its length: of the
    file's sizes, and of writes all of whose bytes are in the part. A part of length 0 covers sizes
    only."""

    offset: int
    length: int

    def covers(self, operation: MicroOperation) -> bool:
        """See SyncPoint.covers: true for a change of the file's size, and for a write whose bytes
        are all in the part."""
        if not super().covers(operation):
            return False
        if isinstance(operation, WriteBlock):
            begin, end = operation.file_offset, operation.file_offset + len(operation.data)
            return self.offset <= begin and end <= self.offset + self.length
        return True


@dataclass
class DirectorySync(SyncPoint):
    """An fsync of a directory, by its number: of its rights, and of all changes of entries in it.
    An fsync of either directory covers a move between the two."""

    number: int

    def covers(self, operation: MicroOperation) -> bool:
        """See SyncPoint.covers: true for a change of the directory's rights or of an entry in the
        directory, false for a change of its own entry."""
        return operation.directory_number == self.number or any(
            directory == self.number for directory, _ in operation.entries
        )

    def is_fresh(self, operations_since: List[MicroOperation]) -> bool:
        """See SyncPoint.is_fresh: whether one of operations_since changed the directory's rights or
        an entry in it, or made, moved, removed or replaced the directory."""
        synced = Inode(DIRECTORY, self.number)
        return any(
            self.covers(operation) or synced in operation.handled_inodes
            for operation in operations_since
        )
