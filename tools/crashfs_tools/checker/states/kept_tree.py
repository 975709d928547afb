"""A directory that has one tree after another: what two of them have in common, and what COMMAND
left as it was, stays.

A file is left as it was if its inode, size, mode, links and times are those that it had when it was
written, and that was in an earlier tick of the system's clock than COMMAND's start. File systems in
memory don't change times with stores through a mapping: there its bytes are compared too. On a disk
only what differs is written of a large file, a page of many, so that COMMAND's syncs are short.
"""

from __future__ import annotations

import os
import stat
import time
from dataclasses import dataclass, field
from typing import Dict, Iterator, List, Mapping, NamedTuple, Optional, Set, Tuple, Union

from crashfs_tools.common.entry import Entry
from crashfs_tools.common.file_bytes import read_file_bytes
from crashfs_tools.common.mount_table import MountTable
from crashfs_tools.common.removal import FOLDER, TRASH_ENDING, remove_tree, set_folder_mode

from .layout import (
    FILLED_MODE,
    NEW_FILE,
    make_links,
    open_to_fill,
    set_modes,
    unused_path,
    write_all,
)
from .rewriting import Bytes, rewrite

# File systems that change a file's times with the first store through a new mapping.
WITH_TIMES = {'ext2', 'ext3', 'ext4', 'xfs', 'f2fs', 'overlay'}
CHANGED_FILE = os.O_RDWR | os.O_NOFOLLOW | os.O_CLOEXEC
# The clock that files have their times of; Python has no name for it.
REALTIME_COARSE = 5
# No clock of a system has longer ticks.
TICK_SECONDS = 0.011
# Smaller files are made again.
LARGE_BYTES = 1 << 16


Signature = Tuple[int, ...]
# The part of a signature that a change of a file's bytes leaves as it is.
RIGHTS = 5


class LaidFile(NamedTuple):
    """A file as it was written. attributes are the names of its extended attributes; of a small
    file, which is never changed in place, they aren't read."""

    entry: Entry
    signature: Signature
    attributes: List[str]


@dataclass
class TreeChange:
    """A change of a directory to a tree, while it is made: the paths of the tree that are there
    already, at first only the root's, and the modes that directories have meanwhile, by path."""

    tree: Mapping[str, Entry]
    remaining_paths: Set[str] = field(default_factory=lambda: {''})
    modes: Dict[str, int] = field(default_factory=dict)


class Unchangeable(Exception):
    """A directory can't be changed to a tree: one in it has another owner or other extended
    attributes than a new one, or it has a mount, or something that can't be removed."""


class KeptTree:
    """The directory of one process. Call change_to() for each tree, and note_start() before COMMAND
    starts: files that are as young as that count as changed by COMMAND. `directory` is another path
    if an earlier one couldn't be removed."""

    def __init__(self, directory: str) -> None:
        """Makes nothing yet. The first change_to() removes what is at the directory's path. OSError
        as MountTable()."""
        self.directory = directory
        self.mounts = MountTable()
        # Whether the directory has the last tree, but for what COMMAND changed.
        self.is_whole = False
        # The files as they were written, by path.
        self.files: Dict[str, LaidFile] = {}
        # When COMMAND started, in nanoseconds of the clock of files.
        self.command_start = 0
        # Whether the file system's times show each store, and which extended attributes and which
        # users and groups a new directory may have.
        self.has_times = False
        self.attributes: List[str] = []
        self.owners: Set[Tuple[int, int]] = set()

    def change_to(self, tree: Mapping[str, Entry]) -> None:
        """Gives the directory a tree, whose paths are relative, the root's empty: by changes or, if
        there is no directory yet or something in it can't be changed, from scratch. Errors as in
        make_again()."""
        if self.is_whole:
            try:
                self.make_changes(tree)
                return
            except (OSError, Unchangeable):
                pass
        self.make_again(tree)

    def make_again(self, tree: Mapping[str, Entry]) -> None:
        """Removes the directory, makes it again, and fills it with a tree; then sleeps
        TICK_SECONDS, so that the new files are older than COMMAND. OSError if the directory can't
        be removed, made or filled: the next change_to() begins from scratch."""
        self.remove()
        os.mkdir(self.directory, FILLED_MODE)
        self.has_times = file_system_type(self.directory) in WITH_TIMES
        self.attributes = attribute_names(self.directory)
        status = os.lstat(self.directory)
        # The group may be that of the directory around it.
        self.owners = {(status.st_uid, status.st_gid), (os.geteuid(), os.getegid())}
        self.make_changes(tree)
        self.is_whole = True
        time.sleep(TICK_SECONDS)

    def note_start(self) -> None:
        """Notes the time at which COMMAND starts. What is written in this tick of the clock of
        files, or later, counts as changed by it."""
        self.command_start = time.clock_gettime_ns(REALTIME_COARSE)

    def remove(self) -> None:
        """Removes the directory, if it is there. If something in it can't be removed, the next tree
        gets a directory with another path. OSError as remove_tree(): the directory may have lost a
        part, and the next change_to() begins from scratch."""
        self.is_whole, self.files = False, {}
        if not remove_tree(self.directory):
            self.directory = unused_path(self.directory)

    def make_changes(self, tree: Mapping[str, Entry]) -> None:
        """Changes in the directory, which must be there, what differs from the tree; the umask is 0
        meanwhile. make_again() must have found its owners and attributes. Unchangeable, or an
        OSError, if something can't be changed: the directory may then have neither the old tree nor
        the new one."""
        if self.mounts.points_below(self.directory):
            raise Unchangeable
        change = TreeChange(tree)
        self.open_up(change, '', self.directory, None, os.lstat(self.directory))
        with open_to_fill(self.directory) as root:
            self.clear(change, root, '')
            self.fill(change, root)

    def fill(self, change: TreeChange, root: int) -> None:
        """Makes the entries of the tree whose paths aren't in remaining_paths, below the open
        directory `root`: files and directories, then symbolic links. Then sets the modes of
        directories whose mode isn't that of the tree. After an OSError the rest isn't made."""
        remaining_paths, modes = change.remaining_paths, change.modes
        self.files = {path: self.files[path] for path in remaining_paths if path in self.files}
        for path, entry in change.tree.items():
            if path not in remaining_paths:
                self.make_entry(change, root, path, entry)
        # Until now no symbolic link is there: nothing was made or changed through one.
        make_links(symbolic_links(change.tree), root)
        wanted_modes = ((path, change.tree[path].mode) for path in modes)
        set_modes([(path, mode) for path, mode in wanted_modes if mode != modes[path]], root)

    def clear(self, change: TreeChange, folder: int, path: str) -> None:
        """Removes from a directory, which is open as `folder` and at `path` in the tree, all that
        the tree doesn't have or must have made again, and all symbolic links, at any depth. Adds
        the paths of what stays to remaining_paths of the change. Unchangeable if a directory can't
        be removed, or hasn't the owner and attributes of a new one; OSError if anything else can't
        be removed or changed."""
        if attribute_names(folder) != self.attributes:
            raise Unchangeable
        with os.scandir(folder) as entries:
            found_entries = list(entries)
        for entry in found_entries:
            entry_path = f'{path}/{entry.name}' if path else entry.name
            wanted_entry = change.tree.get(entry_path)
            status = entry.stat(follow_symlinks=False)
            if not stat.S_ISDIR(status.st_mode):
                if self.keep_file(folder, entry_path, wanted_entry, status):
                    change.remaining_paths.add(entry_path)
                else:
                    os.unlink(entry.name, dir_fd=folder)
            elif wanted_entry is None or not wanted_entry.is_directory:
                if not remove_tree(entry.name, folder, self.directory + TRASH_ENDING):
                    raise Unchangeable
            else:
                self.clear_directory(change, folder, entry.name, entry_path, status)

    def clear_directory(
        self, change: TreeChange, folder: int, name: str, path: str, status: os.stat_result
    ) -> None:
        """Clears a directory that the tree has too, and adds it to remaining_paths of the change.
        `name` is its name in the open directory `folder`, `path` its whole path in the tree.
        Unchangeable and OSError as in clear()."""
        self.open_up(change, path, name, folder, status)
        directory = os.open(name, FOLDER, dir_fd=folder)
        try:
            self.clear(change, directory, path)
        finally:
            os.close(directory)
        change.remaining_paths.add(path)

    def open_up(
        self,
        change: TreeChange,
        path: str,
        name: str,
        folder: Optional[int],
        status: os.stat_result,
    ) -> None:
        """Gives a directory the rights that changes need, if it lacks them, and notes the mode that
        it has then in `modes` of the change, by its path in the tree. `name` is its name in the
        open directory `folder`, or its absolute path if `folder` is None. OSError if the mode can't
        be set, Unchangeable if owner and group aren't those of a new directory."""
        if (status.st_uid, status.st_gid) not in self.owners:
            raise Unchangeable
        mode = stat.S_IMODE(status.st_mode)
        if mode & FILLED_MODE != FILLED_MODE:
            set_folder_mode(name, FILLED_MODE, folder)
            mode = FILLED_MODE
        change.modes[path] = mode

    def keep_file(
        self, folder: int, path: str, wanted_entry: Optional[Entry], status: os.stat_result
    ) -> bool:
        """Returns whether what is at a path, which is no directory, can stay: it is as it is
        wanted, or change_bytes() gave it the wanted bytes. wanted_entry is None if the tree lacks
        the path. OSError as is_as_wanted() and change_bytes()."""
        if wanted_entry is None:
            return False
        return self.is_as_wanted(folder, path, wanted_entry, status) or self.change_bytes(
            folder, path, wanted_entry, status
        )

    def is_as_wanted(
        self, folder: int, path: str, wanted_entry: Entry, status: os.stat_result
    ) -> bool:
        """Whether the file at a path still is as it was written, and as it is wanted. `folder` is
        its open directory, `status` that of the file itself, by lstat. The bytes are read only if
        the file system's times don't show each store; OSError if they can't be read."""
        laid_file = self.files.get(path)
        if (
            laid_file is None
            or laid_file.entry != wanted_entry
            or not self.is_as_laid(laid_file, status)
        ):
            return False
        return self.has_times or read_bytes(folder, path.rpartition('/')[2]) == wanted_entry.data

    def is_as_laid(self, laid_file: LaidFile, status: os.stat_result) -> bool:
        """Whether a file has the status with which it was written, before the tick of the clock in
        which COMMAND started. On some file systems its bytes may differ nevertheless."""
        return (
            laid_file.signature == signature_of(status) and status.st_ctime_ns < self.command_start
        )

    def change_bytes(
        self, folder: int, path: str, wanted_entry: Entry, status: os.stat_result
    ) -> bool:
        """Gives a file its wanted bytes in place, and returns True; `folder` is its open directory,
        `status` that of the file itself, by lstat. Returns False, and changes nothing, if the file
        must be made again: needs_only_bytes() is False, it can't be opened, or COMMAND changed its
        extended attributes. After an OSError the file may have some of the bytes."""
        laid_file = self.files.get(path)
        if laid_file is None or not self.needs_only_bytes(laid_file, wanted_entry, status):
            return False
        try:
            file = os.open(path.rpartition('/')[2], CHANGED_FILE, dir_fd=folder)
        except OSError:
            return False
        try:
            if attribute_names(file) != laid_file.attributes:
                return False
            old_bytes = (
                laid_file.entry.data
                if self.is_as_laid(laid_file, status)
                else read_file_bytes(file)
            )
            rewrite(file, old_bytes or b'', wanted_entry.data or b'')
            self.files[path] = LaidFile(
                wanted_entry, signature_of(os.fstat(file)), laid_file.attributes
            )
        finally:
            os.close(file)
        return True

    def needs_only_bytes(
        self, laid_file: LaidFile, wanted_entry: Entry, status: os.stat_result
    ) -> bool:
        """Whether a file is large, and at most its bytes aren't as they are wanted: its mode is the
        wanted one, and COMMAND has neither replaced it nor changed its rights or links. False if
        the file system's times don't show each store."""
        return (
            self.has_times
            and laid_file.entry.mode == wanted_entry.mode
            and is_large(wanted_entry)
            and laid_file.signature[:RIGHTS] == signature_of(status)[:RIGHTS]
        )

    def make_entry(self, change: TreeChange, root: int, path: str, entry: Entry) -> None:
        """Makes the file or directory of a path below the open directory `root`, and notes it in
        `files`, or in `modes` of the change. Nothing is made for a symbolic link. FileExistsError
        if something is at the path; after another OSError a file may have a part of its bytes."""
        if entry.data is None:
            if entry.is_directory:
                os.mkdir(path, FILLED_MODE, dir_fd=root)
                change.modes[path] = FILLED_MODE
            return
        file = os.open(path, NEW_FILE, entry.mode, dir_fd=root)
        try:
            write_all(file, entry.data)
            attributes = attribute_names(file) if is_large(entry) else []
            self.files[path] = LaidFile(entry, signature_of(os.fstat(file)), attributes)
        finally:
            os.close(file)


def symbolic_links(tree: Mapping[str, Entry]) -> Iterator[Tuple[str, str]]:
    """Yields the path and the target of each symbolic link of a tree."""
    for path, entry in tree.items():
        if entry.link is not None:
            yield path, entry.link


def is_large(entry: Entry) -> bool:
    """Whether a file has so many bytes that it is changed in place, not made again; never for a
    directory or a link."""
    return len(entry.data or b'') >= LARGE_BYTES


def signature_of(status: os.stat_result) -> Signature:
    """Numbers from a file's status. A change of the file changes at least one of them, except as
    this module's text says: in the same tick of the clock, or with a store through a mapping. The
    first RIGHTS of them stay the same if only the file's bytes are changed."""
    return (
        status.st_ino,
        status.st_mode,
        status.st_nlink,
        status.st_uid,
        status.st_gid,
        status.st_size,
        status.st_mtime_ns,
        status.st_ctime_ns,
    )


def read_bytes(folder: int, name: str) -> Bytes:
    """The bytes of the file with this name in an open directory. OSError if it can't be read, or is
    a symbolic link."""
    file = os.open(name, os.O_RDONLY | os.O_NOFOLLOW | os.O_CLOEXEC, dir_fd=folder)
    try:
        return read_file_bytes(file)
    finally:
        os.close(file)


def attribute_names(file: Union[str, int]) -> List[str]:
    """The names of the extended attributes of a file or directory, by its path or descriptor; none
    if they can't be read, as on a file system that has none."""
    try:
        return os.listxattr(file)
    except OSError:
        return []


def file_system_type(path: str) -> str:
    """The type of the file system that a path is in, as mountinfo names it; an empty text if
    mountinfo doesn't have that file system, or can't be read. OSError if nothing is at the path."""
    device = os.stat(path).st_dev
    device_text = f'{os.major(device)}:{os.minor(device)}'
    try:
        with open('/proc/self/mountinfo', encoding='utf-8', errors='replace') as lines:
            types = [
                line.split(' - ')[1].split(' ')[0]
                for line in lines
                if line.split(' ')[2] == device_text
            ]
    except (OSError, IndexError):
        return ''
    return types[-1] if types else ''
