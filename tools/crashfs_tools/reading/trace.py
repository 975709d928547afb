"""A whole trace: its start tree, its micro-operations and its sync points."""

from __future__ import annotations

from typing import Dict, List

from .data import Data, split_by_blocks
from .faults import LineFault, ReadingFault, syntax_fault
from .lines import Line, LineReader, bytes_of
from .micro import (
    Acknowledgement,
    ChangeSize,
    CreateEntry,
    DeleteEntry,
    LinkEntry,
    MicroOperation,
    MoveEntry,
    RenameHalf,
    Rights,
    SetDirectoryRights,
    SetFileRights,
    WriteBlock,
)
from .names import DIRECTORY, FILE, ROOT, SYMLINK, Entry, Inode, NameTree
from .syncs import DataSync, DirectorySync, FileSync, RangeSync, SyncPoint

# The most micro-operations of a trace.
MICRO_OPERATIONS = 1_024
# The bytes of a page. From version 4 on a file grows to the end of its last page first.
PAGE_BYTES = 4_096
# What a line may have that counts as empty.
BLANKS = ' \t\r'
# The mode of each symbolic link.
SYMLINK_MODE = '777'


class Reading:
    """A trace, read line by line: read_line() takes the header first. `names` is the tree after the
    lines read so far, `start` has the entries of the start tree. Files and symbolic links are
    numbered together, directories apart."""

    def __init__(self) -> None:
        """Nothing is read yet. Profile and block size are what a header without them means."""
        self.version = 1
        self.profile = 'blocks'
        self.block_size = 4096
        self.start: Dict[Entry, Inode] = {}
        # What is at each path of the start tree.
        self.start_paths: Dict[str, Inode] = {'/': Inode(DIRECTORY, ROOT)}
        # The path of each directory if no directory is moved; the root's is empty.
        self.unmoved_paths: Dict[int, str] = {ROOT: ''}
        # The rights and the bytes with which each file or symbolic link is made, by its number. The
        # bytes are shared: copy them before you change them.
        self.initial_rights: Dict[int, Rights] = {}
        self.initial_data: Dict[int, Data] = {}
        # The rights of each directory of the start tree, and those that each inode has now.
        self.start_rights: Dict[int, Rights] = {}
        self.rights: Dict[Inode, Rights] = {}
        self.operations: List[MicroOperation] = []
        self.syncs: List[SyncPoint] = []
        self.names = NameTree(self.version)

    def read_line(self, line: Line) -> None:
        """Adds what a line does. LineFault if it doesn't fit the lines before it; then nothing was
        added. The line must be well formed. The number of micro-operations isn't limited here."""
        self.names.refuse_unfit_line(line)
        earlier_count = len(self.operations)
        if line.key == 'trace':
            self.read_header(line)
        else:
            getattr(self, f'{line.key}_{line.word}')(line)
        for operation in self.operations[earlier_count:]:
            operation.line_number = line.number

    def read_header(self, line: Line) -> None:
        """Takes the version, the profile and the size of blocks from a header, and begins the tree:
        an empty root with the header's rights. If the header has no profile or size, `blocks` and
        4096 stay."""
        self.version = line.fields['trace']
        self.names = NameTree(self.version)
        self.profile = line.fields.get('profile', self.profile)
        self.block_size = line.fields.get('block', self.block_size)
        self.start_rights[ROOT] = self.rights[Inode(DIRECTORY, ROOT)] = line.rights

    def add_change(self, operation: MicroOperation) -> None:
        """Adds a change of a file, with the oldest of the file's paths. The change must have the
        number of a file that has a path."""
        assert operation.file_number is not None
        oldest_entry = self.names.file_entries[operation.file_number][0]
        operation.path = self.names.path_of_entry(oldest_entry)
        self.operations.append(operation)

    def unmoved_path(self, entry: Entry) -> str:
        """The path that an entry has while no directory above the entry is moved. KeyError if no
        line has made the entry's directory."""
        directory, name = entry
        return f'{self.unmoved_paths[directory]}/{name}'

    # Files, symbolic links and directories

    def make_file(self, line: Line, kind: str, rights: Rights, data: Data) -> Inode:
        """Makes the file or symbolic link (`kind`) of a line, with these rights and bytes, and
        returns its inode."""
        node = self.names.add_file(line.fields['path'], data.length, kind)
        self.initial_rights[node.number] = self.rights[node] = rights
        self.initial_data[node.number] = data
        return node

    def make_symlink(self, line: Line) -> Inode:
        """Makes the symbolic link of a line, whose bytes are its target and whose mode is
        SYMLINK_MODE, and returns its inode."""
        target = line.fields['target'].encode('utf-8')
        rights = line.fields['owner'], line.fields['group'], SYMLINK_MODE
        data = Data.from_parts(self.block_size, len(target), [(0, target)])
        return self.make_file(line, SYMLINK, rights, data)

    def make_directory(self, line: Line) -> Inode:
        """Makes the directory of a line, with its rights and its unmoved path, and returns its
        inode."""
        path = line.fields['path']
        node = self.names.add_directory(path)
        self.unmoved_paths[node.number] = self.unmoved_path(self.names.entry_at(path))
        self.rights[node] = line.rights
        return node

    # Start lines: each of these adds what a `start` line of its kind has.

    def start_dir(self, line: Line) -> None:
        """Adds a directory, with its rights, also to the start tree."""
        node = self.make_directory(line)
        self.start_rights[node.number] = line.rights
        self.add_start_entry(line, node)

    def start_file(self, line: Line) -> None:
        """Adds a file, with its rights and bytes, also to the start tree."""
        data = Data.from_parts(self.block_size, line.file_length, line.file_parts)
        self.add_start_entry(line, self.make_file(line, FILE, line.rights, data))

    def start_symlink(self, line: Line) -> None:
        """Adds a symbolic link, with its target, also to the start tree."""
        self.add_start_entry(line, self.make_symlink(line))

    def start_link(self, line: Line) -> None:
        """Adds one more entry of a file, also to the start tree."""
        node = self.names.add_link(line.fields['from'], line.fields['path'])
        self.add_start_entry(line, node)

    def add_start_entry(self, line: Line, node: Inode) -> None:
        """Adds a start line's path, at which `node` is, and its entry to the start tree. `names`
        must have the path already."""
        path = line.fields['path']
        self.start[self.names.entry_at(path)] = self.start_paths[path] = node

    # Operations on entries: each of these adds what an `op` line of its kind does.

    def op_creat(self, line: Line) -> None:
        """Adds an empty file, and the micro-operation that makes it."""
        self.add_creation(line, self.make_file(line, FILE, line.rights, Data(self.block_size)))

    def op_mkdir(self, line: Line) -> None:
        """Adds a directory, and the micro-operation that makes it."""
        self.add_creation(line, self.make_directory(line))

    def op_symlink(self, line: Line) -> None:
        """Adds a symbolic link, and the micro-operation that makes it."""
        self.add_creation(line, self.make_symlink(line))

    def add_creation(self, line: Line, node: Inode) -> None:
        """Adds the micro-operation by which a line makes `node`, which make_file(), make_symlink()
        or make_directory() must have returned for this line."""
        path, target = line.fields['path'], line.fields.get('target', '')
        entry = self.names.entry_at(path)
        self.operations.append(CreateEntry(path, entry, node, self.rights[node], target))

    def op_unlink(self, line: Line) -> None:
        """Adds the removal of an entry, which holds a file, a symbolic link or, for an rmdir, an
        empty directory."""
        path = line.fields['path']
        entry = self.names.entry_at(path)
        self.operations.append(DeleteEntry(path, entry, self.names.remove_path(path)))

    op_rmdir = op_unlink

    def op_rename(self, line: Line) -> None:
        """Adds a rename. A rename between two paths of the same file, or onto the same path, does
        nothing, as in rename(2). In version 4 with the profile `blocks`, a file or symbolic link
        goes into another directory in two halves: LinkEntry, then DeleteEntry."""
        old_path, new_path = line.fields['from'], line.fields['to']
        node, replaced = self.names.require_inode(old_path), self.names.inode_at(new_path)
        if node == replaced:
            return
        source, target = self.names.entry_at(old_path), self.names.entry_at(new_path)
        self.names.move(old_path, new_path)
        is_whole = self.version < 4 or self.profile != 'blocks' or node.kind == DIRECTORY
        if is_whole or source[0] == target[0]:
            paths, entries = (old_path, new_path), (source, target)
            move = MoveEntry(paths, entries, node, replaced, has_node_field=self.version >= 4)
            self.operations.append(move)
        else:
            first, second = RenameHalf.FIRST, RenameHalf.SECOND
            self.operations += [
                LinkEntry(new_path, target, node, rename_half=first, replaced=replaced),
                DeleteEntry(old_path, source, node, rename_half=second),
            ]

    def op_link(self, line: Line) -> None:
        """Adds one more entry of a file, and the micro-operation that makes this entry."""
        path = line.fields['to']
        node = self.names.add_link(line.fields['from'], path)
        self.operations.append(LinkEntry(path, self.names.entry_at(path), node))

    # Operations on what files and directories are

    def op_write(self, line: Line) -> None:
        """Adds a write: a new size if the write ends past the file's end, then its blocks. In
        version 4, if the file ends inside a page and the write past that page, the file first gets
        the page's end as its size. A write of no bytes does nothing."""
        file_number = self.names.require_inode(line.fields['path']).number
        begin, size = line.fields['offset'], self.names.sizes[file_number]
        data = bytes_of(line.fields)
        end = begin + len(data)
        if data and end > size:
            if self.version >= 4 and size < page_end(size) < end:
                self.change_size(file_number, page_end(size))
            self.change_size(file_number, end)
        self.write_blocks(file_number, begin, data)

    def write_blocks(self, file_number: int, file_offset: int, data: bytes) -> None:
        """Adds a micro-operation for each block of a file that gets some of these bytes; none if
        there are no bytes. The size stays."""
        for block, offset, piece in split_by_blocks(file_offset, data, self.block_size):
            self.add_change(WriteBlock(file_number, block, self.block_size, offset, piece))

    def op_truncate(self, line: Line) -> None:
        """Adds a truncate: a new size, or nothing if the file has this size. In version 4 a file
        whose new end is inside a page and before its old end gets zeros first: from the new end to
        the end of that page or to the old end, whichever comes first."""
        file_number = self.names.require_inode(line.fields['path']).number
        length, size = line.fields['length'], self.names.sizes[file_number]
        if size == length:
            return
        if self.version >= 4:
            zero_count = max(0, min(page_end(length), size) - length)
            self.write_blocks(file_number, length, bytes(zero_count))
        self.change_size(file_number, length)

    def change_size(self, file_number: int, length: int) -> None:
        """Sets the size of a file, and adds the micro-operation that does so."""
        self.names.sizes[file_number] = length
        self.add_change(ChangeSize(file_number, length))

    def op_chmod(self, line: Line) -> None:
        """Adds a change of the mode; owner and group stay."""
        owner, group, _ = self.rights[self.names.require_inode(line.fields['path'])]
        self.set_rights(line, (owner, group, line.fields['mode']))

    def op_chown(self, line: Line) -> None:
        """Adds a change of owner and group; the mode stays."""
        mode = self.rights[self.names.require_inode(line.fields['path'])][2]
        self.set_rights(line, (line.fields['owner'], line.fields['group'], mode))

    def set_rights(self, line: Line, rights: Rights) -> None:
        """Adds the micro-operation that sets the rights of what is at a line's path, unless it has
        these rights already. The path of the micro-operation is the line's for a directory, the
        oldest one for a file."""
        node = self.names.require_inode(line.fields['path'])
        if self.rights[node] == rights:
            return
        self.rights[node] = rights
        if node.kind == DIRECTORY:
            path = line.fields['path']
            self.operations.append(SetDirectoryRights(node.number, path, rights))
        else:
            self.add_change(SetFileRights(node.number, rights))

    def op_say(self, line: Line) -> None:
        """Adds an acknowledged line."""
        self.operations.append(Acknowledgement())

    # Sync points: each of these adds that of an `op` line of its kind.

    def op_fsync(self, line: Line) -> None:
        """Adds the sync point of a file or of a directory."""
        node = self.names.require_inode(line.fields['path'])
        sync_type = DirectorySync if node.kind == DIRECTORY else FileSync
        self.syncs.append(sync_type(len(self.operations), node.number))

    def op_fdatasync(self, line: Line) -> None:
        """Adds the sync point of a file's data."""
        file_number = self.names.require_inode(line.fields['path']).number
        self.syncs.append(DataSync(len(self.operations), file_number))

    def op_fsync_range(self, line: Line) -> None:
        """Adds the sync point of a range of a file, which may end above 2^64 - 1."""
        file_number = self.names.require_inode(line.fields['path']).number
        offset, length = line.fields['offset'], line.fields['length']
        self.syncs.append(RangeSync(len(self.operations), file_number, offset, length))

    def op_sync(self, line: Line) -> None:
        """Adds a sync point of everything."""
        self.syncs.append(SyncPoint(len(self.operations)))


def page_end(length: int) -> int:
    """A length, rounded up to whole pages. 0 stays 0."""
    return -(-length // PAGE_BYTES) * PAGE_BYTES


def parse_trace(trace_bytes: bytes) -> Reading:
    """The trace whose file has these bytes. ReadingFault with its first fault: no UTF-8, a fault of
    a line, no line but empty ones, or, after all lines are read, more than MICRO_OPERATIONS
    micro-operations. Empty lines, also those of blanks, are skipped, but counted."""
    try:
        text = trace_bytes.decode('utf-8')
    except UnicodeDecodeError as error:
        raise ReadingFault('trace: NotText') from error
    reading, line_reader = Reading(), LineReader()
    for number, line in enumerate(text.split('\n'), 1):
        if line.strip(BLANKS):
            try:
                reading.read_line(line_reader.read_line(number, line))
            except LineFault as fault:
                raise fault.as_reading_fault(number) from fault
    if not line_reader.version:
        raise syntax_fault('the trace is empty').as_reading_fault(1)
    if len(reading.operations) > MICRO_OPERATIONS:
        raise ReadingFault('too many micro-operations')
    return reading
