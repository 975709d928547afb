"""The directory as the calls leave it: files with all their names, also those that no trace has."""

from __future__ import annotations

from dataclasses import dataclass, field
from typing import Dict, List, Optional, Set, Union

from crashfs_tools.common import limits
from crashfs_tools.common.entry import paths_below
from crashfs_tools.common.sparse import SparseBytes
from crashfs_tools.common.trace import StartSymlink

from .directory import ScannedEntry

# The offset source of a write that goes to the file's end.
END = 'end'


@dataclass(frozen=True)
class Change:
    """A change of a file's bytes from the offset `start` up to, and without, `end`. Its thread
    began the call at first_line of the log, and ended it at last_line. offset_source is what gave
    the call its offset: END, an open file whose offset is shared, or None if the call names it.
    is_past_end means that the change made the file longer."""

    thread: int
    first_line: int
    last_line: int
    start: int
    end: int
    offset_source: object
    is_past_end: bool

    def is_unordered_with(self, other: Change) -> bool:
        """Whether this change and another of the same file ran at once, in two threads, and their
        order decides the file's bytes: their ranges overlap, one is at the end that the other
        moves, or both move one shared offset."""
        is_at_once = self.first_line <= other.last_line and other.first_line <= self.last_line
        if self.thread == other.thread or not is_at_once:
            return False
        has_overlap = self.start < other.end and other.start < self.end
        has_moved_end = (
            self.offset_source == END
            and other.is_past_end
            or other.offset_source == END
            and self.is_past_end
        )
        has_shared_offset = (
            self.offset_source is not None and self.offset_source is other.offset_source
        )
        return has_overlap or has_moved_end or has_shared_offset


@dataclass(eq=False)
class Node:
    """A file, directory or symbolic link. link_target is None unless it is a symbolic link.

    traced_paths has the paths at which the trace has it. data is None for a directory or link, and
    for a file whose bytes are not followed any more; its size is still kept. is_temporary means a
    file of O_TMPFILE, for which was_synced counts until it has a name. has_new_rights, of a
    directory, means that its mode or owner changed since its last sync. recent_changes has the
    changes that may have run at the same time as a later one."""

    is_directory: bool
    mode: int
    data: Optional[SparseBytes] = None
    size: int = 0
    traced_paths: Set[str] = field(default_factory=set)
    names: Set[str] = field(default_factory=set)
    is_temporary: bool = False
    was_synced: bool = False
    has_new_rights: bool = False
    recent_changes: List[Change] = field(default_factory=list)
    link_target: Optional[str] = None

    @staticmethod
    def file(mode: int, data: Union[bytes, SparseBytes] = b'') -> Node:
        """A new file without a name, with a copy of these bytes."""
        return Node(is_directory=False, mode=mode, data=SparseBytes.copy_of(data), size=len(data))

    @staticmethod
    def symbolic_link(target: str) -> Node:
        """A new symbolic link without a name."""
        return Node(is_directory=False, mode=0o777, link_target=target)

    @staticmethod
    def unknown() -> Node:
        """A new file without a name, which the trace won't have: its bytes and mode aren't
        known."""
        return Node(is_directory=False, mode=0)

    @property
    def name(self) -> str:
        """The name that a report gives it: the first in the order of the names, or a text in
        brackets if it has none."""
        return min(self.names) if self.names else '(a file without a name)'

    @property
    def traced_path(self) -> Optional[str]:
        """The first, in alphabetical order, of its traced_paths; None if the trace doesn't have
        it."""
        return min(self.traced_paths, default=None)

    @property
    def path_of_traced_bytes(self) -> Optional[str]:
        """The traced_path of a file whose bytes are followed; None for any other node, and if the
        trace doesn't have the file."""
        return None if self.data is None else self.traced_path

    def drop_bytes(self) -> None:
        """Stops following the bytes; the size is still kept."""
        self.data = None

    def write(self, offset: int, data: bytes) -> None:
        """Writes bytes at an offset. The file gets longer if their end, or their offset if there
        are none, is past its end. Only the size changes if the file's bytes aren't followed, or if
        resize() stops following them."""
        self.resize(max(self.size, offset + len(data)))
        if self.data is not None:
            self.data.write(offset, data)

    def resize(self, length: int) -> None:
        """Sets the length: cuts the bytes, or adds zeros. Above LARGE_FILE_BYTES, the most that any
        trace may have, the bytes aren't followed any more, even if the file is cut later."""
        self.size = length
        if length > limits.LARGE_FILE_BYTES:
            self.drop_bytes()
        if self.data is not None:
            self.data.resize(length)

    def add_change(self, change: Change) -> bool:
        """Adds a change to recent_changes, and returns whether it is_unordered_with() one of them.
        Changes that ended before it began are forgotten first."""
        self.recent_changes = [
            recent for recent in self.recent_changes if recent.last_line >= change.first_line
        ]
        is_unordered = any(change.is_unordered_with(recent) for recent in self.recent_changes)
        self.recent_changes.append(change)
        return is_unordered


def new_node(entry: ScannedEntry) -> Node:
    """A new node for an entry that a scan found: without a name, and with a copy of the entry's
    bytes."""
    if isinstance(entry, StartSymlink):
        return Node.symbolic_link(entry.link)
    if entry.data is None:
        return Node(is_directory=True, mode=entry.mode)
    return Node.file(entry.mode, entry.data)


class LiveTree:
    """Nodes by their paths below the directory, whose own path is `/`. A node's names are the paths
    at which it is."""

    def __init__(self, root: Node) -> None:
        """A tree that has only the root, which gets its name."""
        self.nodes: Dict[str, Node] = {}
        self.add_name('/', root)

    def node_at(self, path: Optional[str]) -> Optional[Node]:
        """The node at a path. None if nothing is there, and for the path None, which a file outside
        the directory or an ignored one has."""
        return None if path is None else self.nodes.get(path)

    def add_name(self, path: str, node: Node) -> None:
        """Gives a node a name, which must be free; the node may have other names."""
        self.nodes[path] = node
        node.names.add(path)

    def remove_name(self, path: str) -> Node:
        """Removes a name, and returns the node that had it; KeyError if nothing has it. What is
        below a directory stays, and so do the node's traced_paths."""
        node = self.nodes.pop(path)
        node.names.discard(path)
        return node

    def paths_below(self, path: str) -> List[str]:
        """All paths below a directory, which must not be the root, at any depth; empty for any
        other path."""
        return list(paths_below(self.nodes, path))

    def move_node(self, source: str, target: str) -> None:
        """Moves the node at a path, and all that is below it, to a free path. Their traced_paths
        stay: move_traced_paths() moves those. KeyError if nothing is at the path."""
        below = self.paths_below(source)
        self.add_name(target, self.remove_name(source))
        for path in below:
            self.add_name(target + path[len(source) :], self.remove_name(path))

    def move_traced_paths(self, source: str, target: str) -> None:
        """Moves the traced_paths of a directory that move_node() has moved from source to target,
        and of what is below it. Those of a node that the trace doesn't have at its old path
        stay."""
        for path in [target] + self.paths_below(target):
            traced_paths, old_path = self.nodes[path].traced_paths, source + path[len(target) :]
            if old_path in traced_paths:
                traced_paths.remove(old_path)
                traced_paths.add(path)
