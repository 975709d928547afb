"""Makes the operations of a trace again, with the calls that its program made."""

from __future__ import annotations

import ctypes
import mmap
import os
from typing import Any, Callable, Dict, List, NamedTuple, Type, Union

from crashfs_tools.common.file_bytes import write_at
from crashfs_tools.common.sparse import SparseBytes, runs_of
from crashfs_tools.common.trace import (
    Chmod,
    Chown,
    Creat,
    Fdatasync,
    Fsync,
    FsyncRange,
    Header,
    Link,
    Mkdir,
    Operation,
    Rename,
    Rmdir,
    Say,
    Start,
    StartLink,
    StartSymlink,
    Symlink,
    Sync,
    Trace,
    Truncate,
    Unlink,
    Write,
)
from crashfs_tools.common.whole_files import sync_directory

from .owners import Owners
from .system_calls import last_error, libc

# The mode of a directory of the start tree until the tree is whole.
NEW_DIRECTORY = 0o700
OPEN_FILE = os.O_RDWR | os.O_NOFOLLOW | os.O_CLOEXEC
NEW_FILE = OPEN_FILE | os.O_CREAT | os.O_EXCL
# sync_file_range(2): waits for writes that are under way, writes what is left, and waits for that.
WRITE_AND_WAIT = 1 | 2 | 4

# The lines that make an entry with an owner and a group.
NewEntry = Union[Creat, Mkdir, Symlink, StartSymlink]


def lay_out_start(trace: Trace, top: str, owners: Owners) -> None:
    """Makes the start tree of a trace in a new directory, and writes it to the disk.
    FileExistsError if the directory is there; after an OSError a part of the tree is left."""
    os.mkdir(top, NEW_DIRECTORY)
    make_files_and_directories(trace, top)
    set_start_rights(trace, top, owners)
    # They come last: nothing is made through one.
    symlinks = [line for line in trace.start if isinstance(line, StartSymlink)]
    for symlink in symlinks:
        make_symlink(top + symlink.path, symlink, owners)
    sync_file_system(top)


def make_files_and_directories(trace: Trace, top: str) -> None:
    """Makes the directories and files of the start tree, and their further names, in the directory
    `top`. OSError if one can't be made."""
    for line in trace.start:
        if isinstance(line, StartLink):
            os.link(top + line.source, top + line.path)
        elif isinstance(line, Start):
            make_start_entry(top + line.path, line.data)


def set_start_rights(trace: Trace, top: str, owners: Owners) -> None:
    """Sets the owners, groups and modes of the start tree's directories and files in `top`, and of
    `top` itself: of a directory after what is in it. OSError if one can't be set."""
    entries: List[Union[Header, Start]] = [trace.header]
    entries += [line for line in trace.start if isinstance(line, Start)]
    for entry in reversed(entries):
        path = top + (entry.path if isinstance(entry, Start) else '')
        os.chown(path, owners.users.number(entry.owner), owners.groups.number(entry.group))
        os.chmod(path, entry.mode)


def make_start_entry(path: str, data: Union[bytes, SparseBytes, None]) -> None:
    """Makes a file with these bytes, or a directory if `data` is None. The pages of zeros of
    SparseBytes become holes. Owner and mode are the caller's task. FileExistsError if something is
    there."""
    if data is None:
        os.mkdir(path, NEW_DIRECTORY)
        return
    with open(path, 'xb') as file:
        for offset, run in runs_of(data):
            file.seek(offset)
            file.write(run)
        file.truncate(len(data))


def make_symlink(path: str, line: Union[Symlink, StartSymlink], owners: Owners) -> None:
    """Makes a symbolic link, with the owner and group of its line. FileExistsError if something is
    there."""
    os.symlink(line.link, path)
    set_owner_if_other(path, line, owners)


def set_owner_if_other(path: str, line: NewEntry, owners: Owners) -> None:
    """Sets the owner and group of what a line of the trace made at a path, also of a symbolic link
    itself; but only if they differ, as the session made no such call otherwise. OSError if that
    fails."""
    owner_and_group = owners.users.number(line.owner), owners.groups.number(line.group)
    status = os.lstat(path)
    if (status.st_uid, status.st_gid) != owner_and_group:
        os.lchown(path, *owner_and_group)


class UnsyncedChange(NamedTuple):
    """An operation that changed a file's bytes or size. operation_count says how many operations
    had been made then, with this one; path is the path that the file had."""

    operation_count: int
    path: str


class Replay:
    """The session made again in the directory `top`, as root, so that modes don't hinder it. Each
    kind of operation has a method of its name, which raises the OSError of its call;
    operation_count counts them. Files stay open until the end of the `with`: a file is written and
    synced by one descriptor.

    unsynced has the changes of each file, by its inode, since the last sync that covers them all;
    the files are in the order of their first such changes.
    """

    def __init__(self, top: str, owners: Owners) -> None:
        """The directory must have the start tree, by lay_out_start()."""
        self.top = top
        self.owners = owners
        self.descriptors: Dict[int, int] = {}
        self.operation_count = 0
        self.unsynced: Dict[int, List[UnsyncedChange]] = {}

    def __enter__(self) -> Replay:
        return self

    def __exit__(self, *_: object) -> None:
        for descriptor in self.descriptors.values():
            os.close(descriptor)

    def disk_path(self, path: str) -> str:
        """The path on the disk of a path of the trace."""
        return self.top if path == '/' else self.top + path

    def descriptor(self, path: str) -> int:
        """The descriptor of a file, which the first call opens, and which stays open until the end
        of the `with`. A file is known by its inode, since it may have several names, or have been
        renamed. OSError if it can't be opened, as a directory or a symbolic link."""
        inode = self.inode(path)
        if inode not in self.descriptors:
            self.descriptors[inode] = os.open(self.disk_path(path), OPEN_FILE)
        return self.descriptors[inode]

    def inode(self, path: str) -> int:
        """The inode of what is at a path of the trace. FileNotFoundError if nothing is."""
        return os.lstat(self.disk_path(path)).st_ino

    def make_operation(self, operation: Operation) -> None:
        """Makes an operation: those before it in the session must have been made. It counts in
        operation_count even if it raises an OSError."""
        self.operation_count += 1
        CALLS[type(operation)](self, operation)

    def creat(self, operation: Creat) -> None:
        """Makes a new file with its owner, group and mode, and keeps it open. FileExistsError if
        something is there."""
        descriptor = os.open(self.disk_path(operation.path), NEW_FILE, operation.mode)
        self.descriptors[os.fstat(descriptor).st_ino] = descriptor
        self.set_rights(operation)

    def mkdir(self, operation: Mkdir) -> None:
        os.mkdir(self.disk_path(operation.path), operation.mode)
        self.set_rights(operation)

    def set_rights(self, operation: Union[Creat, Mkdir]) -> None:
        """Sets the owner, group and mode of what an operation made, but only those that differ:
        otherwise the session made no such call."""
        path = self.disk_path(operation.path)
        set_owner_if_other(path, operation, self.owners)
        if os.lstat(path).st_mode & 0o777 != operation.mode:
            os.chmod(path, operation.mode)

    def unlink(self, operation: Unlink) -> None:
        os.unlink(self.disk_path(operation.path))

    def rmdir(self, operation: Rmdir) -> None:
        os.rmdir(self.disk_path(operation.path))

    def rename(self, operation: Rename) -> None:
        os.rename(self.disk_path(operation.source), self.disk_path(operation.target))

    def link(self, operation: Link) -> None:
        os.link(self.disk_path(operation.source), self.disk_path(operation.target))

    def write(self, operation: Write) -> None:
        """Writes all bytes, as write_at() does. A write of no bytes is noted as unsynced too."""
        write_at(self.descriptor(operation.path), operation.offset, operation.data)
        self.note_unsynced(operation.path)

    def truncate(self, operation: Truncate) -> None:
        os.ftruncate(self.descriptor(operation.path), operation.length)
        self.note_unsynced(operation.path)

    def note_unsynced(self, path: str) -> None:
        """Notes that the present operation changed a file's bytes or size, and that no sync covers
        this change yet."""
        self.unsynced.setdefault(self.inode(path), []).append(
            UnsyncedChange(self.operation_count, path)
        )

    def chmod(self, operation: Chmod) -> None:
        os.chmod(self.disk_path(operation.path), operation.mode)

    def chown(self, operation: Chown) -> None:
        """Changes the owner and group of what is at a path, also of a symbolic link itself."""
        users, groups = self.owners.users, self.owners.groups
        user, group = users.number(operation.owner), groups.number(operation.group)
        os.chown(self.disk_path(operation.path), user, group, follow_symlinks=False)

    def fsync(self, operation: Fsync) -> None:
        """Syncs a directory, or a file, which then has no unsynced changes."""
        if os.path.isdir(self.disk_path(operation.path)):
            sync_directory(self.disk_path(operation.path))
        else:
            os.fsync(self.descriptor(operation.path))
            self.unsynced.pop(self.inode(operation.path), None)

    def symlink(self, operation: Symlink) -> None:
        make_symlink(self.disk_path(operation.path), operation, self.owners)

    def fdatasync(self, operation: Fdatasync) -> None:
        os.fdatasync(self.descriptor(operation.path))
        self.unsynced.pop(self.inode(operation.path), None)

    def fsync_range(self, operation: FsyncRange) -> None:
        """Syncs the whole file by fdatasync(), or a part of it by msync(), which writes only the
        part's pages: then all changes of the file still count as unsynced. A part past the file's
        end syncs nothing."""
        descriptor = self.descriptor(operation.path)
        size = os.fstat(descriptor).st_size
        if operation.offset == 0 and operation.length >= size:
            self.fdatasync(Fdatasync(operation.path))
            return
        begin = operation.offset // mmap.PAGESIZE * mmap.PAGESIZE
        end = min(operation.offset + operation.length, size)
        if begin < end:
            with mmap.mmap(descriptor, end - begin, offset=begin) as pages:
                pages.flush()

    def sync(self, _: Sync) -> None:
        sync_file_system(self.top)
        self.unsynced.clear()

    def say(self, _: Say) -> None:
        """Does nothing: to acknowledge a line changes nothing on the disk."""

    def write_back(self, inode: int) -> None:
        """Writes all bytes of a file to the disk, and nothing of the log. The file is given by its
        inode, which `unsynced` must have or have had, and still counts as unsynced. OSError if it
        fails."""
        # From the offset 0; a length of 0 means to the end.
        offset = length = ctypes.c_int64(0)
        descriptor = self.descriptors[inode]
        if libc.sync_file_range(descriptor, offset, length, WRITE_AND_WAIT):
            raise last_error()


# How an operation of each kind is made.
CALLS: Dict[Type[Any], Callable[[Replay, Any], None]] = {
    Creat: Replay.creat,
    Mkdir: Replay.mkdir,
    Unlink: Replay.unlink,
    Rmdir: Replay.rmdir,
    Rename: Replay.rename,
    Link: Replay.link,
    Symlink: Replay.symlink,
    Write: Replay.write,
    Truncate: Replay.truncate,
    Chmod: Replay.chmod,
    Chown: Replay.chown,
    Fsync: Replay.fsync,
    Fdatasync: Replay.fdatasync,
    FsyncRange: Replay.fsync_range,
    Sync: Replay.sync,
    Say: Replay.say,
}


def sync_file_system(path: str) -> None:
    """Makes the whole file system of a directory durable. OSError if that fails."""
    descriptor = os.open(path, os.O_RDONLY | os.O_DIRECTORY | os.O_CLOEXEC)
    try:
        if libc.syncfs(descriptor):
            raise last_error(path)
    finally:
        os.close(descriptor)
