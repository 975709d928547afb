"""Micro-operations: what each of them changes, and how it is printed."""

from __future__ import annotations

from enum import Enum
from typing import Any, Dict, Optional, Tuple

from .names import DIRECTORY, Entry, Inode

# Owner, group and mode, the mode as three octal digits.
Rights = Tuple[str, str, str]


class RenameHalf(Enum):
    """Which half of a rename into another directory a micro-operation is: the first one makes the
    new entry, the second one removes the old entry."""

    FIRST = 1
    SECOND = 2


class MicroOperation:
    """A micro-operation: what it changes, and where it comes from. What a kind doesn't have is
    None, empty, 0 or False. The subclasses are the kinds."""

    # What `list` calls this kind.
    kind: str
    # The paths that `list` prints of it.
    paths: Tuple[str, ...] = ()
    # The entries that it changes.
    entries: Tuple[Entry, ...] = ()
    # What it makes, links, moves, removes or replaces.
    handled_inodes: Tuple[Inode, ...] = ()
    # The number of the directory that it makes, or removes.
    made_directory: Optional[int] = None
    removed_directory: Optional[int] = None
    # Whether it moves a directory.
    is_directory_move = False
    # Which half of a rename it is, if it is one.
    rename_half: Optional[RenameHalf] = None
    # The number of the file whose size, bytes or rights it changes.
    file_number: Optional[int] = None
    # The number of the directory whose rights it changes.
    directory_number: Optional[int] = None
    # A path that this file or directory had then, or empty.
    path = ''
    # The number of its line in the trace, 0 until Reading.read_line() sets it.
    line_number = 0

    @property
    def text(self) -> str:
        """The micro-operation as `list` prints it."""
        raise NotImplementedError

    @property
    def fields(self) -> Dict[str, Any]:
        """The fields that only its kind has in `list --json`."""
        raise NotImplementedError

    @property
    def file_fields(self) -> Dict[str, Any]:
        """The fields in `list --json` of the file that it changes: a path of the file, and the
        file's number. `path` and file_number must be set."""
        return {'path': self.path, 'file': self.file_number}


class CreateEntry(MicroOperation):
    """A file, a symbolic link or a directory (`node`) is made at an entry, with these rights.
    target: that of a symbolic link, else empty."""

    kind = 'create_dir_entry'

    def __init__(
        self, path: str, entry: Entry, node: Inode, rights: Rights, target: str = ''
    ) -> None:
        self.paths, self.entries, self.handled_inodes = (path,), (entry,), (node,)
        self.node = node
        self.rights = rights
        self.target = target
        if node.kind == DIRECTORY:
            self.made_directory = node.number

    @property
    def text(self) -> str:
        """The kind, the path, and the kind of what is made."""
        return f'{self.kind} {self.paths[0]} {self.node.kind}'

    @property
    def fields(self) -> Dict[str, Any]:
        """See MicroOperation.fields. A directory has no `file`, and only a symbolic link has
        `target`."""
        fields: Dict[str, Any] = {'path': self.paths[0], 'node': self.node.kind}
        if self.node.kind != DIRECTORY:
            fields['file'] = self.node.number
        return {**fields, 'target': self.target} if self.target else fields


class DeleteEntry(MicroOperation):
    """An entry of a directory is removed; `node` is what the entry held. rename_half is SECOND if
    this is the second half of a rename, else None."""

    kind = 'delete_dir_entry'

    def __init__(
        self, path: str, entry: Entry, node: Inode, *, rename_half: Optional[RenameHalf] = None
    ) -> None:
        self.paths, self.entries, self.handled_inodes = (path,), (entry,), (node,)
        self.node = node
        self.rename_half = rename_half
        if node.kind == DIRECTORY:
            self.removed_directory = node.number

    @property
    def text(self) -> str:
        """The kind and the path."""
        return f'{self.kind} {self.paths[0]}'

    @property
    def fields(self) -> Dict[str, Any]:
        """The path, and the kind of what is removed."""
        return {'path': self.paths[0], 'node': self.node.kind}


class MoveEntry(MicroOperation):
    """What is at the first of two entries (`node`) is moved to the second. replaced: what was at
    the second entry, or None. has_node_field: whether JSON has the kind of what is moved, as in
    version 4."""

    kind = 'move_dir_entry'

    def __init__(
        self,
        paths: Tuple[str, str],
        entries: Tuple[Entry, Entry],
        node: Inode,
        replaced: Optional[Inode],
        *,
        has_node_field: bool,
    ) -> None:
        self.paths, self.entries = paths, entries
        self.handled_inodes = (node,) if replaced is None else (node, replaced)
        self.node = node
        self.has_node_field = has_node_field
        self.is_directory_move = node.kind == DIRECTORY
        if replaced is not None and replaced.kind == DIRECTORY:
            self.removed_directory = replaced.number

    @property
    def text(self) -> str:
        """The kind, the old path and the new one."""
        return f'{self.kind} {self.paths[0]} {self.paths[1]}'

    @property
    def fields(self) -> Dict[str, Any]:
        """The old path and the new one and, if has_node_field, the kind of what is moved."""
        fields = {'path': self.paths[0], 'to': self.paths[1]}
        return {**fields, 'node': self.node.kind} if self.has_node_field else fields


class LinkEntry(MicroOperation):
    """A file or symbolic link (`node`) gets one more entry. rename_half is FIRST if this is the
    first half of a rename, else None. Only such a half may replace something, which is `replaced`.
    """

    kind = 'link_dir_entry'

    def __init__(
        self,
        path: str,
        entry: Entry,
        node: Inode,
        *,
        rename_half: Optional[RenameHalf] = None,
        replaced: Optional[Inode] = None,
    ) -> None:
        self.paths, self.entries = (path,), (entry,)
        self.handled_inodes = (node,) if replaced is None else (node, replaced)
        self.node = node
        self.rename_half = rename_half

    @property
    def text(self) -> str:
        """The kind, the path, and the file's number."""
        return f'{self.kind} {self.paths[0]} {self.node.number}'

    @property
    def fields(self) -> Dict[str, Any]:
        """The path, and the file's number."""
        return {'path': self.paths[0], 'file': self.node.number}


class ChangeSize(MicroOperation):
    """A file, given by its number, gets the size `length`."""

    kind = 'change_file_size'
    file_number: int

    def __init__(self, file_number: int, length: int) -> None:
        self.file_number = file_number
        self.length = length

    @property
    def text(self) -> str:
        """The kind, the file's number and the size."""
        return f'{self.kind} {self.file_number} {self.length}'

    @property
    def fields(self) -> Dict[str, Any]:
        """The file and the size."""
        return {**self.file_fields, 'length': self.length}


class WriteBlock(MicroOperation):
    """Bytes are written into a block of a file, both given by their numbers, at an offset in the
    block. file_offset is their offset in the file."""

    kind = 'write_block'
    file_number: int

    def __init__(
        self, file_number: int, block: int, block_size: int, offset: int, data: bytes
    ) -> None:
        """`data` must end in the block, at the latest. `block_size` is the trace's."""
        self.file_number = file_number
        self.block = block
        self.offset = offset
        self.file_offset = block * block_size + offset
        self.data = data

    @property
    def text(self) -> str:
        """The kind, the numbers of file and block, the offset in the block, and how many bytes."""
        return f'{self.kind} {self.file_number} {self.block} {self.offset} {len(self.data)}'

    @property
    def fields(self) -> Dict[str, Any]:
        """The file, the block's number, the offset in the block, and how many bytes."""
        write = {'block': self.block, 'at': self.offset, 'count': len(self.data)}
        return {**self.file_fields, **write}


class SetRights(MicroOperation):
    """A file or a directory gets an owner, a group and a mode: see the subclasses."""

    kind = 'set_attr'

    def __init__(self, rights: Rights) -> None:
        self.rights = rights

    @property
    def rights_text(self) -> str:
        """What is set, as `list` prints it."""
        owner, group, mode = self.rights
        return f'{mode} {owner} {group}'

    @property
    def rights_fields(self) -> Dict[str, str]:
        """The fields in `list --json` of what is set."""
        owner, group, mode = self.rights
        return {'mode': mode, 'owner': owner, 'group': group}


class SetFileRights(SetRights):
    """A file, given by its number, gets an owner, a group and a mode."""

    file_number: int

    def __init__(self, file_number: int, rights: Rights) -> None:
        super().__init__(rights)
        self.file_number = file_number

    @property
    def text(self) -> str:
        """The kind, `file` and the file's number, and what is set."""
        return f'{self.kind} file {self.file_number} {self.rights_text}'

    @property
    def fields(self) -> Dict[str, Any]:
        """The file, and what is set."""
        return {**self.file_fields, **self.rights_fields}


class SetDirectoryRights(SetRights):
    """A directory, given by its number and path, gets an owner, a group and a mode."""

    directory_number: int

    def __init__(self, directory_number: int, path: str, rights: Rights) -> None:
        super().__init__(rights)
        self.directory_number = directory_number
        self.path = path

    @property
    def text(self) -> str:
        """The kind, `dir` and the directory's path, and what is set."""
        return f'{self.kind} dir {self.path} {self.rights_text}'

    @property
    def fields(self) -> Dict[str, Any]:
        """The directory's path, and what is set."""
        return {'path': self.path, **self.rights_fields}


class Acknowledgement(MicroOperation):
    """A line is acknowledged."""

    kind = text = 'say'

    @property
    def fields(self) -> Dict[str, Any]:
        """None: no field is only of this kind."""
        return {}
