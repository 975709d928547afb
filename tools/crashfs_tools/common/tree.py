"""The tree under the operations of a trace: what each operation needs, and what it does."""

from __future__ import annotations

from typing import Dict, List, Optional, Tuple, Union

from . import limits
from .entry import DIRECTORY_KIND, SYMLINK_KIND, Entries, Entry, parent_of, paths_below
from .sparse import LARGE_BYTES, SparseBytes, round_up_to_pages
from .trace import (
    BLOCK_SIZES,
    BLOCKS,
    Chmod,
    Chown,
    Creat,
    Fdatasync,
    Fsync,
    FsyncRange,
    Header,
    Link,
    Mkdir,
    Operation,
    Rename,
    Rmdir,
    Say,
    Start,
    StartLine,
    StartLink,
    StartSymlink,
    Symlink,
    Truncate,
    Unlink,
    WRITTEN_VERSION,
    Write,
)

ROOT_FAULT = '/ is the root'


def path_fault(path: str) -> Optional[str]:
    """Why a trace can't have a path, in words; None if it can. What is at the path isn't looked at,
    nor names that are empty, `.` or `..`: the caller's paths are resolved."""
    names = path.split('/')[1:]
    if len(names) > limits.PATH_NAMES:
        return f'a path of more than {limits.PATH_NAMES} names'
    try:
        is_name_long = any(len(name.encode()) > limits.NAME_BYTES for name in names)
    except UnicodeEncodeError:
        return 'a name that is not UTF-8'
    return f'a name of more than {limits.NAME_BYTES} bytes' if is_name_long else None


class Tree:
    """The entries by path. files has the number of the file, link or directory at each path; all
    paths of a file have one number, and share its entry. made_count counts all that was made or
    linked, the root too; move_count the renames into another directory. Micro-operations that only
    version 4 has are counted apart from those of all versions, so version may be changed from 3 to
    4: then `records` and micro_operations are those of version 4, also for earlier operations."""

    def __init__(
        self,
        owner: str,
        group: str,
        mode: int,
        block: int = BLOCK_SIZES[-1],
        version: int = WRITTEN_VERSION,
        profile: str = BLOCKS,
    ) -> None:
        """A tree that has only the root, with these rights, in a trace of this version, profile and
        size of blocks."""
        self.entries: Entries = {'/': Entry(owner, group, mode, None)}
        self.files: Dict[str, int] = {'/': 0}
        self.made_count, self.move_count = 1, 0
        self.block = block
        self.version = version
        self.profile = profile
        self.micro_operations_of_all_versions = 0
        self.micro_operations_of_version_4 = 0

    @property
    def records(self) -> int:
        """How many records the program counts for the tree in its present version: all that was
        made or linked, also what was removed, and in version 4 each rename into another
        directory."""
        return self.made_count + (self.move_count if self.version >= 4 else 0)

    @property
    def micro_operations(self) -> int:
        """How many micro-operations the applied operations have, in the tree's present version."""
        if self.version < 4:
            return self.micro_operations_of_all_versions
        return self.micro_operations_of_all_versions + self.micro_operations_of_version_4

    def add_start(self, line: StartLine) -> None:
        """Adds the file, directory or link of a start line, with a copy of bytes that can be
        changed. Nothing is checked: the parent must be there, and the path free. KeyError if the
        source of a link isn't there."""
        if isinstance(line, StartLink):
            self.add_link(line.source, line.path)
        elif isinstance(line, StartSymlink):
            self.add_new(line.path, symlink_entry(line))
        else:
            data = line.data.copy() if isinstance(line.data, SparseBytes) else line.data
            self.add_new(line.path, Entry(line.owner, line.group, line.mode, data))

    def add_new(self, path: str, entry: Entry) -> None:
        """Adds a new file, directory or symbolic link, with the next number, and counts it in
        made_count. The path must be free."""
        self.entries[path], self.files[path] = entry, self.made_count
        self.made_count += 1

    def add_link(self, source: str, target: str) -> None:
        """Gives the file at `source` another path, which must be free, and counts it in made_count.
        KeyError if `source` isn't there."""
        self.entries[target], self.files[target] = self.entries[source], self.files[source]
        self.made_count += 1

    # What an operation needs

    def fault(self, operation: Operation) -> Optional[str]:
        """Why the trace can't have an operation here, in words; None if it can. The tree isn't
        changed. Users, modes, the count of micro-operations and the bytes of a say aren't looked
        at: a say or a sync of all is always possible."""
        if isinstance(operation, (Creat, Mkdir, Symlink)):
            return self.creation_fault(operation.path)
        if isinstance(operation, Rename):
            return self.rename_fault(operation)
        if isinstance(operation, Link):
            fault = self.entry_fault(operation.source, DIRECTORY_KIND, SYMLINK_KIND)
            return fault or self.creation_fault(operation.target)
        if isinstance(operation, Rmdir):
            return self.rmdir_fault(operation.path)
        if isinstance(operation, Chown):
            return self.entry_fault(operation.path)
        if isinstance(operation, (Chmod, Fsync)):
            return self.entry_fault(operation.path, SYMLINK_KIND)
        if isinstance(operation, Unlink):
            return self.entry_fault(operation.path, DIRECTORY_KIND)
        if isinstance(operation, (Write, Truncate, Fdatasync, FsyncRange)):
            fault = self.entry_fault(operation.path, DIRECTORY_KIND, SYMLINK_KIND)
            return fault or self.size_fault(operation)
        return None

    def creation_fault(self, path: str) -> Optional[str]:
        """Why nothing can be made at a path: the parent is no directory, something is there, there
        are too many records, or path_fault() has a reason. None if something can be made."""
        fault = self.parent_fault(path)
        if fault is not None:
            return fault
        if path in self.entries:
            return f'{path} is there already'
        if self.records >= limits.RECORDS:
            return f'more than {limits.RECORDS} files and directories'
        return path_fault(path)

    def parent_fault(self, path: str) -> Optional[str]:
        """Why nothing can be at a path: its parent is no directory of the trace. None if it is
        one."""
        parent = self.entries.get(parent_of(path))
        is_directory = parent is not None and parent.is_directory
        return None if is_directory else f'{parent_of(path)} is no directory of the trace'

    def entry_fault(self, path: str, *refused_kinds: str) -> Optional[str]:
        """Why an operation on what is at a path is impossible: nothing is there, or an entry of one
        of these kinds, as Entry.kind has them. None if it is possible."""
        entry = self.entries.get(path)
        if entry is None:
            return f'{path} is not there'
        return f'{path} is {entry.kind}' if entry.kind in refused_kinds else None

    def rename_fault(self, operation: Rename) -> Optional[str]:
        """Why a rename is impossible in the tree's version: by what is at its paths, by
        path_fault() of the target, or since no record is left. None if it is possible, also if it
        does nothing."""
        source, target = operation.source, operation.target
        source_entry, target_entry = self.entries.get(source), self.entries.get(target)
        fault = self.parent_fault(target)
        if fault is not None:
            return fault
        if source_entry is None:
            return f'{source} is not there'
        if source_entry.is_directory:
            fault = self.directory_rename_fault(source, target)
        else:
            is_target_directory = target_entry is not None and target_entry.is_directory
            fault = f'{target} is a directory' if is_target_directory else None
        return fault or self.records_fault(operation) or path_fault(target)

    def directory_rename_fault(self, source: str, target: str) -> Optional[str]:
        """Why a directory can't be renamed from `source` to `target`; None if it can. Before
        version 4 no directory can, and the root never. A directory may replace an empty one, or be
        renamed to itself."""
        if self.version < 4:
            return f'{source} is a directory'
        if source == '/':
            return ROOT_FAULT
        if target.startswith(source + '/'):
            return f'{target} is below {source}'
        if target == source or target not in self.entries:
            return None
        return self.rmdir_fault(target)

    def records_fault(self, operation: Rename) -> Optional[str]:
        """Why there is no record left for a rename. None if there is one, or if the rename needs
        none: it needs one only in version 4, to move something into another directory. A rename to
        another path of the same file moves nothing. KeyError if the source isn't there."""
        source, target = operation.source, operation.target
        is_same_file = self.files[source] == self.files.get(target)
        is_move = parent_of(source) != parent_of(target) and not is_same_file
        if self.version >= 4 and is_move and self.records >= limits.RECORDS:
            return f'more than {limits.RECORDS} files and directories'
        return None

    def rmdir_fault(self, path: str) -> Optional[str]:
        """Why a directory can't be removed: it is the root, isn't there, or has entries. None if it
        can."""
        if path == '/':
            return ROOT_FAULT
        entry = self.entries.get(path)
        if entry is None or not entry.is_directory:
            return f'{path} is no directory of the trace'
        is_empty = next(paths_below(self.entries, path), None) is None
        return None if is_empty else f'{path} has entries'

    def size_fault(self, operation: Operation) -> Optional[str]:
        """Why a file can't have the size that a write or truncate gives it; None if it can, and for
        other operations."""
        largest_size = limits.most_file_bytes(self.version)
        is_too_large = least_file_size(operation) > largest_size
        return f'a file of more than {largest_size} bytes' if is_too_large else None

    # What an operation does

    def apply(self, operation: Operation) -> None:
        """Does an operation, for which fault() must be None, and counts its micro-operations and
        records. A sync changes nothing; a say is only counted."""
        count = 1
        if isinstance(operation, (Creat, Mkdir)):
            data = b'' if isinstance(operation, Creat) else None
            entry = Entry(operation.owner, operation.group, operation.mode, data)
            self.add_new(operation.path, entry)
        elif isinstance(operation, Symlink):
            self.add_new(operation.path, symlink_entry(operation))
        elif isinstance(operation, (Unlink, Rmdir)):
            del self.entries[operation.path], self.files[operation.path]
        elif isinstance(operation, Link):
            self.add_link(operation.source, operation.target)
        elif isinstance(operation, Rename):
            count = self.apply_rename(operation)
        elif isinstance(operation, Write):
            count = self.apply_write(operation)
        elif isinstance(operation, Truncate):
            count = self.apply_truncate(operation)
        elif isinstance(operation, (Chmod, Chown)):
            count = self.set_rights(operation)
        elif not isinstance(operation, Say):
            count = 0
        self.micro_operations_of_all_versions += count

    def apply_rename(self, operation: Rename) -> int:
        """Renames a path, with all that is below a directory, and replaces what is at the target.
        Returns how many micro-operations that is in all versions: 1, or 0 if both paths are the
        same file's, and nothing is done. A move into another directory is counted in move_count,
        and what only version 4 has of it in micro_operations_of_version_4."""
        source, target = operation.source, operation.target
        if self.files[source] == self.files.get(target):
            return 0
        is_directory = self.entries[source].is_directory
        if parent_of(source) != parent_of(target):
            self.move_count += 1
            self.micro_operations_of_version_4 += self.profile == BLOCKS and not is_directory
        inner_paths = paths_below(self.entries, source) if is_directory else ()
        for path in (source, *inner_paths):
            new_path = target + path[len(source) :]
            self.entries[new_path] = self.entries.pop(path)
            self.files[new_path] = self.files.pop(path)
        return 1

    def apply_write(self, operation: Write) -> int:
        """Writes bytes. Returns how many micro-operations that is in all versions; 0 if there are
        no bytes. One that only version 4 has is counted in micro_operations_of_version_4."""
        entry = self.entries[operation.path]
        old_size = len(entry.data or b'')
        if not operation.data:
            return 0
        end = operation.offset + len(operation.data)
        entry.write(operation.offset, operation.data)
        self.micro_operations_of_version_4 += is_growth_past_page(old_size, end)
        return int(end > old_size) + self.count_blocks(operation.offset, end)

    def apply_truncate(self, operation: Truncate) -> int:
        """Sets a length. Returns how many micro-operations that is in all versions: 1, or 0 if the
        file has this length already. In version 4 a cut also writes zeros to the end of the last
        page: their blocks are counted in micro_operations_of_version_4."""
        entry, length = self.entries[operation.path], operation.length
        old_size = len(entry.data or b'')
        entry.resize(length)
        zeros_end = min(round_up_to_pages(length), old_size)
        if length < zeros_end:
            self.micro_operations_of_version_4 += self.count_blocks(length, zeros_end)
        return int(old_size != length)

    def count_blocks(self, begin: int, end: int) -> int:
        """How many blocks the bytes from offset `begin` to before `end` are in. There must be at
        least one byte."""
        return (end - 1) // self.block - begin // self.block + 1

    def set_rights(self, operation: Union[Chmod, Chown]) -> int:
        """Sets a mode, or an owner and a group. Returns how many micro-operations that is: 1, or 0
        if nothing changes."""
        entry = self.entries[operation.path]
        old_rights = entry.owner, entry.group, entry.mode
        if isinstance(operation, Chmod):
            entry.mode = operation.mode
        else:
            entry.owner, entry.group = operation.owner, operation.group
        return int((entry.owner, entry.group, entry.mode) != old_rights)


def symlink_entry(line: Union[Symlink, StartSymlink]) -> Entry:
    """The entry of a symbolic link; its mode is 777, as the system reports it."""
    return Entry(line.owner, line.group, 0o777, None, line.link)


def least_file_size(operation: Operation) -> int:
    """The size that a file has at least after an operation: the offset at which a write's bytes
    end, or the length that a truncate sets. 0 for any other operation, and for a write of no bytes,
    which changes no size."""
    if isinstance(operation, Write):
        return operation.offset + len(operation.data) if operation.data else 0
    return operation.length if isinstance(operation, Truncate) else 0


def is_growth_past_page(old_size: int, end: int) -> bool:
    """Whether a write up to `end` gives a file two new sizes in version 4: first the end of its
    last page, if that isn't full, and then its own end."""
    return old_size < round_up_to_pages(old_size) < end


def start_lines(entries: Entries, files: Dict[str, int]) -> Tuple[Header, List[StartLine]]:
    """The header and the start lines of a tree, in the order of the names of their paths, so that
    each line comes after that of its directory. files has one number for all paths of a file: the
    first path has the file's line, and the others are links to that path. Later changes of the tree
    don't change the lines."""
    root = entries['/']
    first_paths: Dict[int, str] = {}
    lines: List[StartLine] = []
    for path in sorted(entries.keys() - {'/'}, key=lambda path: path.split('/')):
        entry = entries[path]
        first_path = first_paths.setdefault(files[path], path)
        if first_path != path:
            lines.append(StartLink(path, first_path))
        elif entry.link is not None:
            lines.append(StartSymlink(path, entry.owner, entry.group, entry.link))
        else:
            lines.append(Start(path, entry.owner, entry.group, entry.mode, copy_of_bytes(entry)))
    return Header(root.owner, root.group, root.mode), lines


def copy_of_bytes(entry: Entry) -> Union[bytes, SparseBytes, None]:
    """A copy of the bytes of a file; None for a directory or a symbolic link. It is SparseBytes if
    the file's bytes are, or if there are LARGE_BYTES or more."""
    if isinstance(entry.data, SparseBytes) or len(entry.data or b'') >= LARGE_BYTES:
        return SparseBytes.copy_of(entry.data or b'')
    return None if entry.data is None else bytes(entry.data)
