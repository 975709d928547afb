"""The files below the directory as the calls leave them: by path and by descriptor, and what each
call adds to the recording."""

from __future__ import annotations

import os.path
from dataclasses import dataclass
from typing import Dict, List, NamedTuple, Optional
from weakref import WeakSet

from crashfs_tools.common import limits
from crashfs_tools.common.entry import parent_of
from crashfs_tools.common.trace import (
    Creat,
    Fdatasync,
    Fsync,
    FsyncRange,
    Mkdir,
    Operation,
    Rename,
    Symlink,
    Truncate,
    Write,
)

from . import arguments
from .directory import PERMISSIONS, IsIgnored
from .live_tree import Change, LiveTree, Node
from .output_streams import OutputStream
from .processes import Descriptors, OpenFile, PathContext, Process, open_file_of_path
from .recording import Recording
from .resolving import ReadLink, Resolver
from .strace_log import Call

UNKNOWN = 'by something that the log has not'


def no_target(_: str) -> None:
    """None, whatever the path of the link: no target of a link outside the directory is known."""


@dataclass(frozen=True)
class StartConditions:
    """What COMMAND started with: the absolute path of the directory as the calls name it (`top`),
    the umask, and the owner and group of new files. read_outside returns the target of a symbolic
    link outside the directory, or of an ignored one, by its absolute path; None if it isn't
    known."""

    top: str
    umask: int
    owner: str
    group: str
    read_outside: ReadLink = no_target


class LateSync(NamedTuple):
    """A sync that a write makes at its end (O_SYNC), if that is on a later line of the log than its
    beginning: the write, the file, and the range of its bytes."""

    call: Call
    node: Node
    offset: int
    length: int


class LiveFiles:
    """The files, processes and streams that the calls change, with the recording. The handlers of
    calls, in the modules of `calls`, change these. has_copies means that copies show what is stored
    through mappings (--mapped). A method that reads a call's argument raises LogError if this
    argument isn't as strace writes it."""

    def __init__(
        self,
        recording: Recording,
        conditions: StartConditions,
        is_ignored: IsIgnored,
        tree: LiveTree,
        *,
        has_copies: bool,
    ) -> None:
        """The files in a live tree; no process is known yet."""
        self.recording = recording
        self.conditions = conditions
        self.is_ignored = is_ignored
        self.tree = tree
        self.resolver = Resolver(conditions.top, self.read_link, conditions.read_outside)
        self.processes: Dict[int, Process] = {}
        # The files of O_TMPFILE, until nothing refers to them.
        self.temporary_files: WeakSet[Node] = WeakSet()
        self.late_syncs: List[LateSync] = []
        self.has_copies = has_copies

    def first_process(self) -> Process:
        """COMMAND's first process as it starts: in the directory, with the umask of the start
        conditions, and with the output streams that it inherits. Other descriptors that are open at
        its start aren't known. It isn't added to `processes`."""
        streams = self.recording.streams.inherited_streams
        files = {number: OpenFile(None, stream=stream) for number, stream in streams.items()}
        return Process(Descriptors(files), PathContext(self.conditions.top, self.conditions.umask))

    # Paths

    def read_link(self, path: str) -> Optional[str]:
        """The target of the symbolic link at a path of the directory; None if no link is known
        there. The target of an ignored link, which isn't in the tree, is what read_outside of the
        start conditions returns: it may read the disk as that is now."""
        node = self.tree.node_at(path)
        if node is not None:
            return node.link_target
        if not self.is_ignored(path):
            return None
        return self.conditions.read_outside(self.conditions.top + path)

    def resolve_path(self, path: str, *, follow_last_link: bool = False) -> Optional[str]:
        """The path in the tree, as path_in_tree() returns it, to which an absolute path leads. A
        symbolic link at the end of the path is followed if follow_last_link is set, or if a slash
        is after it. None also if the path goes through too many symbolic links."""
        return self.path_in_tree(self.resolver.resolve(path, follow_last_link=follow_last_link))

    def path_in_tree(self, full_path: Optional[str]) -> Optional[str]:
        """The path below the directory, beginning with `/`, of an absolute path without symbolic
        links. None if that path is outside the directory, in a removed directory, ignored, or None.
        Nothing need be there."""
        below = self.resolver.path_below(full_path)
        return None if below is None or self.is_ignored(below) else below

    def full_path(self, base: str, word: str, *, follow_last_link: bool = False) -> Optional[str]:
        """The absolute path to which the path in an argument leads, also outside the directory. A
        relative path begins at the directory with the absolute path `base`. None if strace cut the
        path, or if it goes through too many symbolic links. follow_last_link is that of
        resolve_path()."""
        path = arguments.parse_path(word)
        if path is None:
            return None
        return self.resolver.resolve(os.path.join(base, path), follow_last_link=follow_last_link)

    def are_of_same_file(self, path: str, other_path: str) -> bool:
        """Whether two absolute paths lead to one file or directory of the live tree now, by hard or
        symbolic links. False if nothing is known at one of them."""
        node = self.tree.node_at(self.resolve_path(path, follow_last_link=True))
        other_node = self.tree.node_at(self.resolve_path(other_path, follow_last_link=True))
        return node is not None and node is other_node

    # Arguments of calls

    def path_argument(self, process: Process, call: Call, index: int) -> Optional[str]:
        """The path in the argument with this index, as resolve_path() returns it. A relative path
        begins at the working directory; a symbolic link at the end isn't followed. None also if
        strace cut the path."""
        return self.resolve_argument(process.path_context.directory, call.argument(index))

    def path_argument_at(self, process: Process, call: Call, index: int) -> Optional[str]:
        """As path_argument(), for the argument after the one with this index. A relative path
        begins at the directory that Process.directory_of() returns for the descriptor in the
        argument with this index."""
        base = process.directory_of(call.descriptor(index))
        return self.resolve_argument(base, call.argument(index + 1))

    def resolve_argument(
        self, base: str, word: str, *, follow_last_link: bool = False
    ) -> Optional[str]:
        """The path in an argument, as resolve_path() returns it. A relative path begins at the
        directory with the absolute path `base`. None also if strace cut the path."""
        return self.path_in_tree(self.full_path(base, word, follow_last_link=follow_last_link))

    def node_argument(
        self, process: Process, call: Call, *, follow_last_link: bool
    ) -> Optional[Node]:
        """The file or directory at the path in the first argument, as node_at_argument() returns
        it. A relative path begins at the working directory."""
        base, word = process.path_context.directory, call.argument(0)
        return self.node_at_argument(process, base, word, follow_last_link=follow_last_link)

    def node_argument_at(
        self, process: Process, call: Call, *, follow_last_link: bool
    ) -> Optional[Node]:
        """As node_argument(), for the path in the second argument. A relative path begins at the
        directory of the descriptor in the first argument, as in path_argument_at(). An empty path
        means that descriptor's own file."""
        descriptor, word = call.descriptor(0), call.argument(1)
        file = process.open_file(descriptor)
        if file is not None and arguments.parse_path(word) == '':
            return file.node
        base = process.directory_of(descriptor)
        return self.node_at_argument(process, base, word, follow_last_link=follow_last_link)

    def node_at_argument(
        self, process: Process, base: str, word: str, *, follow_last_link: bool
    ) -> Optional[Node]:
        """The file or directory at the path in an argument. A symbolic link at its end is followed
        if follow_last_link is set: else it is returned itself. A path such as /proc/self/fd/3 means
        that descriptor's file. None if nothing is known there, for a stream, or if
        resolve_argument() returns None."""
        file = open_file_of_path(word, process, self.processes)
        if file is not None:
            return file.node
        path = self.resolve_argument(base, word, follow_last_link=follow_last_link)
        return self.tree.node_at(path)

    # Descriptors

    def open_file_or_report(
        self, process: Process, call: Call, index: int = 0
    ) -> Optional[OpenFile]:
        """The open file of the descriptor in the argument with this index; None if the descriptor
        isn't followed. If strace shows a path of the directory for such a descriptor, the log lacks
        the call that opened it: that is reported, unless the file is unlinked."""
        descriptor = call.descriptor(index)
        file = process.open_file(descriptor)
        if file is None and descriptor.path is not None and not descriptor.is_deleted:
            path = self.resolve_path(descriptor.path)
            if path is not None:
                what = f'{call.name} by a descriptor that was opened {UNKNOWN}'
                self.recording.report(what, path)
        return file

    def find_output_stream(
        self, process: Process, call: Call, index: int = 0
    ) -> Optional[OutputStream]:
        """The output stream of the descriptor in the argument with this index; None for a file. If
        the descriptor isn't followed, it is that of OutputStreams.find_or_make_stream(). If it is
        standard output, what strace shows for the descriptor is added to the streams."""
        descriptor = call.descriptor(index)
        streams = self.recording.streams
        file = process.open_file(descriptor)
        if file is None:
            return streams.find_or_make_stream(descriptor.number, descriptor.text)
        if file.stream is streams.inherited_streams[1]:
            streams.add_text_of_output(descriptor.text)
        return file.stream

    # Changes

    def add_new_node(self, path: str, node: Node) -> None:
        """Adds a new file, directory or symbolic link at a free path. The trace gets the node too,
        if it has the node's directory. If it can't have the node, that is reported, and the node is
        only in the live tree."""
        self.tree.add_name(path, node)
        parent = self.tree.node_at(parent_of(path))
        if parent is None or parent.traced_path is None:
            return
        if self.recording.add_operation(self.operation_that_makes(path, node)):
            node.traced_paths.add(path)

    def add_new_file(self, path: str, mode: int) -> Node:
        """Adds a new plain file at a free path, as add_new_node() does, and returns its node. Bits
        of the mode beyond 777 are only noted, if the trace has the file."""
        node = Node.file(mode & PERMISSIONS)
        self.add_new_node(path, node)
        self.recording.note_extra_bits(node.traced_path, mode)
        return node

    def rename_in_trace(self, node: Node, source: str, target: str) -> None:
        """Renames a file in the trace; in the live tree it must have the new name already. If the
        trace can't have the rename, which is reported, neither path is among the file's traced
        paths."""
        node.traced_paths.discard(source)
        if self.recording.add_operation(Rename(source, target)):
            node.traced_paths.add(target)

    def operation_that_makes(self, path: str, node: Node) -> Operation:
        """The operation that makes a node at a path, with the owner and group of the start
        conditions. A file is made without its bytes."""
        owner, group = self.conditions.owner, self.conditions.group
        if node.is_directory:
            return Mkdir(path, owner, group, node.mode)
        if node.link_target is not None:
            return Symlink(path, owner, group, node.link_target)
        return Creat(path, owner, group, node.mode)

    def write_by_call(
        self, node: Node, offset: int, data: bytes, offset_source: object = None
    ) -> None:
        """Writes the bytes of the recording's current call, as write_bytes() does; nothing if there
        are none. offset_source is as in Change. If another call changed the file at the same
        time, and the order of the two decides its bytes, that is reported."""
        if not data:
            return
        call, end = self.recording.current_call, offset + len(data)
        if call is not None:
            change = Change(
                thread=call.thread,
                first_line=call.begin,
                last_line=call.end,
                start=offset,
                end=end,
                offset_source=offset_source,
                is_past_end=end > node.size,
            )
            if node.add_change(change):
                what = 'two calls changed it at once, and their order is not in the log'
                self.recording.report(what, node.name)
        self.write_bytes(node, offset, data)

    def zero_by_call(self, node: Node, start: int, end: int) -> None:
        """Writes zeros from the offset `start` to before `end`, as the current call does; the file
        grows if `end` is past its end. If `end` is above FILE_BYTES, only pages that have data are
        written, and a new length is set separately. If the file's bytes aren't followed, only its
        size may change."""
        if node.data is None:
            node.resize(max(node.size, end))
        elif end <= limits.FILE_BYTES:
            self.write_by_call(node, start, bytes(max(0, end - start)))
        else:
            for data_start, data_end in node.data.data_ranges(start, end):
                self.write_by_call(node, data_start, bytes(data_end - data_start))
            if end > node.size:
                self.set_length(node, end)

    def write_bytes(self, node: Node, offset: int, data: bytes) -> None:
        """Writes bytes to a file; in the trace too, if the file's bytes are followed and the trace
        has a path of it. If the trace can't have the write, that is reported, and the file's bytes
        aren't followed any more."""
        path = node.path_of_traced_bytes
        node.write(offset, data)
        if path is not None and not self.recording.add_operation(Write(path, offset, bytes(data))):
            node.drop_bytes()

    def set_length(self, node: Node, length: int) -> None:
        """Cuts a file or makes it longer; in the trace too, as write_bytes() does."""
        path = node.path_of_traced_bytes
        node.resize(length)
        if path is not None and not self.recording.add_operation(Truncate(path, length)):
            node.drop_bytes()

    def drop_bytes(self, node: Node, reason: str) -> None:
        """Stops following a file's bytes; its size is still kept. The reason is reported if the
        file has a name."""
        if node.names:
            self.recording.report(f'{reason}; its later bytes are not recorded', node.name)
        node.drop_bytes()

    # Syncs

    def sync_file(self, node: Node) -> None:
        """Adds a sync of a file or directory, with its mode and owner, if the trace has a path of
        it. In any case sets the node's was_synced, since a file of O_TMPFILE may get its name
        later, and clears its has_new_rights."""
        node.was_synced, node.has_new_rights = True, False
        if node.traced_path is not None:
            self.recording.add_operation(Fsync(node.traced_path))

    def sync_data(self, node: Node) -> None:
        """Adds a sync of a file's size and all its bytes, but not of its mode and owner, if the
        trace has a path of it, and sets the node's was_synced. No trace has such a sync of a
        directory: sync_file() adds a full one instead, which is reported if the directory's mode or
        owner was changed since its last sync."""
        if not node.is_directory:
            node.was_synced = True
            if node.traced_path is not None:
                self.recording.add_operation(Fdatasync(node.traced_path))
            return
        if node.has_new_rights:
            what = 'fdatasync of a directory whose mode or owner was changed'
            self.recording.report(what, node.name)
        self.sync_file(node)

    def sync_range(self, node: Node, offset: int, length: int) -> None:
        """Adds a sync of `length` bytes of a file from an offset on, and of its size, if the trace
        has a path of it. Sets the node's was_synced, as sync_file() does."""
        node.was_synced = True
        if node.traced_path is not None:
            self.recording.add_operation(FsyncRange(node.traced_path, offset, length))

    def sync_range_after_write(self, node: Node, offset: int, length: int) -> None:
        """Adds the sync of a range that the current call, a write, makes at its end (O_SYNC): now
        if the call is one line of the log, else add_ended_syncs() adds it later."""
        call = self.recording.current_call
        if call is None or call.begin == call.end:
            self.sync_range(node, offset, length)
        else:
            self.late_syncs.append(LateSync(call, node, offset, length))

    def add_ended_syncs(self, line: Optional[int]) -> None:
        """Adds, and forgets, the late syncs of the calls that ended before a line of the log, or of
        all calls (None), in the order of the calls' ends. The recording's current_call is the call
        of the last of these syncs then; it stays if there is none."""
        self.late_syncs.sort(key=lambda late_sync: late_sync.call.end)
        while self.late_syncs and (line is None or self.late_syncs[0].call.end < line):
            late_sync = self.late_syncs.pop(0)
            self.recording.current_call = late_sync.call
            self.sync_range(late_sync.node, late_sync.offset, late_sync.length)
