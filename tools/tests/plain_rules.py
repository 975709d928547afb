"""The rules of order as docs/MODEL.md has them, one after the other and without any shortcut."""

from __future__ import annotations

from typing import Iterator, Set

from crashfs_tools.reading import Reading
from crashfs_tools.reading.micro import (
    Acknowledgement,
    ChangeSize,
    CreateEntry,
    DeleteEntry,
    LinkEntry,
    MicroOperation,
    MoveEntry,
    RenameHalf,
    SetRights,
    WriteBlock,
)
from crashfs_tools.reading.syncs import (
    DataSync,
    DirectorySync,
    FileSync,
    RangeSync,
    SyncPoint,
)


def is_entry_operation(one: MicroOperation) -> bool:
    return isinstance(one, (CreateEntry, DeleteEntry, LinkEntry, MoveEntry))


def above(path: str) -> str:
    return path.rpartition('/')[0] or '/'


class PlainRules:
    """Asks for pairs of places. By paths in versions 1 to 3, by entries in version 4."""

    def __init__(self, reading: Reading, profile: str) -> None:
        self.version = reading.version
        self.profile = profile
        self.operations = reading.operations
        self.syncs = reading.syncs

    def needs(self, i: int, j: int) -> bool:
        """Whether j needs i by one of the rules."""
        one, two = self.operations[i], self.operations[j]
        return (
            self.is_same_block_or_size(one, two)
            or self.shares_name(one, two)
            or self.makes_parent(i, j)
            or self.is_of_removed(one, two)
            or self.is_synced(i, j)
            or self.is_in_line(one, two)
            or self.is_logged(i, j)
            or self.are_halves(i, j)
        )

    def chain(self, j: int) -> Set[int]:
        """All that j needs, by any chain."""
        found: Set[int] = set()
        for i in range(j - 1, -1, -1):
            if any(self.needs(i, k) for k in {j, *found} if k > i):
                found.add(i)
        return found

    def is_same_block_or_size(self, one: MicroOperation, two: MicroOperation) -> bool:
        """P1 and P7."""
        if (
            type(one) is not type(two)
            or one.file_number is None
            or one.file_number != two.file_number
        ):
            return False
        if isinstance(one, WriteBlock) and isinstance(two, WriteBlock):
            return one.block == two.block
        return isinstance(one, (ChangeSize, SetRights))

    def names(self, one: MicroOperation) -> Set[object]:
        """What P2 compares: paths, or entries and directories."""
        if self.version < 4:
            is_directory = isinstance(one, SetRights) and one.file_number is None
            return {one.path} if is_directory else set(one.paths)
        found: Set[object] = set(one.entries)
        if isinstance(one, SetRights) and one.file_number is None:
            found.add(one.directory_number)
        if isinstance(one, (CreateEntry, DeleteEntry)) and one.node.kind == 'dir':
            found.add(one.node.number)
        if (
            isinstance(one, MoveEntry)
            and len(one.handled_inodes) == 2
            and one.handled_inodes[1].kind == 'dir'
        ):
            found.add(one.handled_inodes[1].number)
        return found

    def shares_name(self, one: MicroOperation, two: MicroOperation) -> bool:
        """P2."""
        return bool(self.names(one) & self.names(two))

    def makes_parent(self, i: int, j: int) -> bool:
        """P3."""
        two = self.operations[j]
        if self.version >= 4:
            directories = {directory for directory, _ in two.entries}
            one = self.operations[i]
            return (
                isinstance(one, CreateEntry)
                and one.node.kind == 'dir'
                and one.node.number in directories
            )
        return any(
            path != '/' and i == self.latest_create(above(str(path)), j) for path in self.names(two)
        )

    def latest_create(self, path: str, before: int) -> int:
        for place in range(before - 1, -1, -1):
            one = self.operations[place]
            if isinstance(one, CreateEntry) and one.paths == (path,) and one.node.kind == 'dir':
                return place
        return -1

    def is_of_removed(self, one: MicroOperation, two: MicroOperation) -> bool:
        """P4."""
        if self.version < 4:
            return (
                isinstance(two, DeleteEntry)
                and two.node.kind == 'dir'
                and two.paths[0] in map(above, one.paths)
            )
        gone = two.handled_inodes if isinstance(two, DeleteEntry) else ()
        gone = two.handled_inodes[1:] if isinstance(two, MoveEntry) else gone
        removed = [node.number for node in gone if node.kind == 'dir']
        return any(directory in removed for directory, _ in one.entries)

    def is_synced(self, i: int, j: int) -> bool:
        """P5."""
        return any(
            i < sync.place <= j and self.covers(sync, self.operations[i]) for sync in self.syncs
        )

    def covers(self, sync: SyncPoint, one: MicroOperation) -> bool:
        if isinstance(sync, RangeSync):
            if one.file_number != sync.number:
                return False
            if isinstance(one, WriteBlock):
                return (
                    sync.offset <= one.file_offset
                    and one.file_offset + len(one.data) <= sync.offset + sync.length
                )
            return isinstance(one, ChangeSize)
        if isinstance(sync, DataSync):
            return one.file_number == sync.number and isinstance(one, (WriteBlock, ChangeSize))
        if isinstance(sync, FileSync):
            return one.file_number == sync.number
        if isinstance(sync, DirectorySync):
            return self.is_in_directory(one, sync.number)
        return True

    def is_in_directory(self, one: MicroOperation, directory: int) -> bool:
        """Whether it touches an entry of a directory, or sets its owner, group and mode."""
        return one.directory_number == directory or directory in [
            number for number, _ in one.entries
        ]

    def is_in_line(self, one: MicroOperation, two: MicroOperation) -> bool:
        """P6, P8, P9, P10 and P12."""
        if isinstance(one, Acknowledgement):
            return self.version >= 3 or isinstance(two, Acknowledgement)
        if self.profile != 'blocks' and is_entry_operation(one) and is_entry_operation(two):
            return True
        if isinstance(one, CreateEntry) and isinstance(two, LinkEntry):
            return one.node == two.node
        return (
            isinstance(one, MoveEntry)
            and isinstance(two, MoveEntry)
            and one.node.kind == two.node.kind == 'dir'
        )

    def is_logged(self, i: int, j: int) -> bool:
        """P11."""
        return (
            self.profile == 'journal'
            and is_entry_operation(self.operations[i])
            and any(i < sync.place <= j and self.is_fresh(sync) for sync in self.syncs)
        )

    def is_fresh(self, sync: SyncPoint) -> bool:
        """Whether a sync point writes the log."""
        place = next(place for place, one in enumerate(self.syncs) if one is sync)
        begin = self.syncs[place - 1].place if place else 0
        since = self.operations[begin : sync.place]
        if isinstance(sync, DirectorySync):
            own = ('dir', sync.number)
            return any(
                self.is_in_directory(one, sync.number) or own in one.handled_inodes for one in since
            )
        if isinstance(sync, DataSync):
            return any(
                (isinstance(one, ChangeSize) and one.file_number == sync.number)
                or (isinstance(one, CreateEntry) and one.node == ('file', sync.number))
                for one in since
            )
        if isinstance(sync, FileSync):
            return any(
                one.file_number == sync.number or ('file', sync.number) in one.handled_inodes
                for one in since
            )
        return True

    def are_halves(self, i: int, j: int) -> bool:
        """P13."""
        first, second = self.operations[i], self.operations[j]
        halves = first.rename_half, second.rename_half
        return j == i + 1 and halves == (RenameHalf.FIRST, RenameHalf.SECOND)


def chains(reading: Reading, profile: str) -> Iterator[int]:
    """For each place all that it needs, as a set of bits."""
    rules = PlainRules(reading, profile)
    for place in range(len(reading.operations)):
        yield sum(1 << needed for needed in rules.chain(place))
