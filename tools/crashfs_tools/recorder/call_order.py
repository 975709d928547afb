"""The order of calls in the trace: calls of several threads overlap in the log.

A change, and an acknowledged line, is placed where it begins; a sync, and anything else, where it
ends. So a sync covers no change that began after it. A change that overlaps a sync of the same file
may not be covered: it is placed where it ends, after the sync. Files are the same if their paths
are, or if these are names of one file when the change would be placed. A function that reads
arguments raises LogError if one isn't as strace writes it.
"""

from __future__ import annotations

import bisect
import heapq
import os.path
from typing import Callable, Dict, Iterator, List, Optional, Set, Tuple

from . import arguments
from .strace_log import Call

DATA_CHANGES = {
    'write',
    'writev',
    'pwrite64',
    'pwritev',
    'pwritev2',
    'ftruncate',
    'ftruncate64',
    'fallocate',
    'sendfile',
    'sendfile64',
    'copy_file_range',
    'splice',
    'tee',
    'vmsplice',
    'sendto',
    'sendmsg',
    'sendmmsg',
}
NAME_CHANGES = {
    'rename',
    'renameat',
    'renameat2',
    'unlink',
    'unlinkat',
    'rmdir',
    'mkdir',
    'mkdirat',
    'link',
    'linkat',
    'symlink',
    'symlinkat',
    'mknod',
    'mknodat',
    'truncate',
    'truncate64',
}
RIGHT_CHANGES = {
    'chmod',
    'fchmodat',
    'fchmodat2',
    'chown',
    'lchown',
    'fchownat',
    'chown32',
    'lchown32',
}
# An extended attribute may be an access control list, which sets the mode.
ATTRIBUTE_CHANGES = {'setxattr', 'lsetxattr', 'fsetxattr'}
# The changes of a descriptor's file: of its bytes, and others.
DESCRIPTOR_CHANGES = DATA_CHANGES | {'fchmod', 'fchown', 'fchown32', 'fsetxattr'}
# No open is among the changes, though one may make or truncate a file.
CHANGES = DESCRIPTOR_CHANGES | NAME_CHANGES | RIGHT_CHANGES | ATTRIBUTE_CHANGES
OPENS = {'open', 'openat', 'openat2', 'creat'}
# Placed where they begin: from there on another thread may get the number of the descriptor.
CLOSES = {'close', 'close_range'}
SYNCS = {'fsync', 'fdatasync', 'msync', 'sync', 'syncfs'}
# What target_index() returns, unless it is 0.
TARGET_INDEXES = {'copy_file_range': 2, 'splice': 2, 'tee': 1}

# Directly before all that is placed at a line of the log, and at that line.
BEFORE, AT = 0, 1
# Where a call is placed: a line of the log, and BEFORE or AT.
Moment = Tuple[int, int]
# A call after its moment and the line at which it ends, which no other call has.
PlacedCall = Tuple[Moment, int, Call]
# Returns whether two absolute paths are names of one file now.
AreOfSameFile = Callable[[str, str], bool]


class CallQueue:
    """Puts the calls of a log in their order in the trace; to be used once. moments has the moment
    of each call that isn't yielded yet, by the call's id. `queue` has the calls, the last one
    first, and moved_calls, a heap, those that were moved since then, with their new moments.
    unrelated_syncs has, by the id of a change, the syncs of other paths that ran at the same time:
    such a path may be of the same file."""

    def __init__(
        self, calls: List[Call], are_of_same_file: AreOfSameFile = lambda path, other: False
    ) -> None:
        """The calls are in the order of their last lines; nothing is placed yet. When a change is
        next, are_of_same_file is asked about its paths: the caller must have translated the calls
        before it. Without are_of_same_file, two paths are of two files."""
        self.calls, self.are_of_same_file = calls, are_of_same_file
        self.moments: Dict[int, Moment] = {}
        self.queue: List[PlacedCall] = []
        self.moved_calls: List[PlacedCall] = []
        self.unrelated_syncs: Dict[int, List[Call]] = {}

    def calls_in_order(self) -> Iterator[Tuple[int, Call]]:
        """Yields the calls in the order of their operations in the trace. Before each is the number
        of the log's line at which it is placed: its first or last one, or, for a sync, the last one
        of a change. LogError if an argument isn't as strace writes it."""
        self.place_calls()
        self.queue = sorted(map(self.placed_call, self.calls), reverse=True)
        while self.queue or self.moved_calls:
            (line, _), _, call = self.pop_first()
            # A sync that was moved to an earlier place is still at its old one too.
            if id(call) in self.moments and not self.move_by_links(call):
                del self.moments[id(call)]
                yield line, call

    def placed_call(self, call: Call) -> PlacedCall:
        """A call after its moment and, for calls at one moment, the line at which it ends."""
        return self.moments[id(call)], call.end, call

    def pop_first(self) -> PlacedCall:
        """Removes the first call of `queue` or of moved_calls, whichever is earlier, and returns
        it. At least one of the two must have a call."""
        if not self.moved_calls or self.queue and self.queue[-1] < self.moved_calls[0]:
            return self.queue.pop()
        return heapq.heappop(self.moved_calls)

    def place_calls(self) -> None:
        """Sets the moment of each call, and unrelated_syncs, by the paths of syncs and changes.
        LogError as in may_cover()."""
        self.moments.update((id(call), moment_of(call)) for call in self.calls)
        changes = ChangeIndex([call for call in self.calls if call.name in CHANGES])
        for sync in self.calls:
            if sync.name in SYNCS:
                self.place_sync(sync, changes.changes_during(sync))

    def place_sync(self, sync: Call, changes: List[Call]) -> None:
        """Places a sync and the changes that ran at the same time, as move_after_sync() does, if
        the sync may cover them; adds the sync to unrelated_syncs of the others."""
        for change in changes:
            if may_cover(sync, change):
                self.move_after_sync(sync, change)
            else:
                self.unrelated_syncs.setdefault(id(change), []).append(sync)

    def move_after_sync(self, sync: Call, change: Call) -> None:
        """Places a change where it ends, and a sync that ran at the same time directly before this
        end, unless the sync is earlier already."""
        self.moments[id(change)] = (change.end, AT)
        self.moments[id(sync)] = min(self.moments[id(sync)], (change.end, BEFORE))

    def move_by_links(self, change: Call) -> bool:
        """Places a change that would be yielded next after those of its unrelated_syncs that aren't
        yielded yet and may cover it by links, as move_after_sync() does. Returns whether there are
        some: the change isn't next then."""
        syncs = [
            sync
            for sync in self.unrelated_syncs.get(id(change), [])
            if id(sync) in self.moments and self.may_cover_by_links(sync, change)
        ]
        for sync in syncs:
            self.move_after_sync(sync, change)
            heapq.heappush(self.moved_calls, self.placed_call(sync))
        if syncs:
            heapq.heappush(self.moved_calls, self.placed_call(change))
        return bool(syncs)

    def may_cover_by_links(self, sync: Call, change: Call) -> bool:
        """Whether the path of a sync and one of a change are names of one file now. LogError if an
        argument isn't as strace writes it."""
        path, paths = synced_path(sync), changed_paths(change) or ()
        return path is not None and any(self.are_of_same_file(path, other) for other in paths)


def moment_of(call: Call) -> Moment:
    """The moment at which a call is placed in the trace, unless a sync and a change overlap: that
    of its beginning for a change or a close, that of its end for any other call."""
    is_placed_at_begin = call.name in CHANGES or call.name in CLOSES
    return (call.begin if is_placed_at_begin else call.end, AT)


class ChangeIndex:
    """The changes of a log. Most are on one line of it, and are found by a binary search; those on
    two lines are all compared."""

    def __init__(self, changes: List[Call]) -> None:
        """The changes must be in the order of their last lines in the log."""
        self.long_changes = [call for call in changes if call.begin != call.end]
        self.short_changes = [call for call in changes if call.begin == call.end]
        self.short_lines = [call.begin for call in self.short_changes]

    def changes_during(self, sync: Call) -> List[Call]:
        """The changes of other threads that ran at the same time as a sync, at least in part."""
        begin = bisect.bisect_left(self.short_lines, sync.begin)
        end = bisect.bisect_right(self.short_lines, sync.end)
        changes = self.short_changes[begin:end] + self.long_changes
        return [change for change in changes if is_concurrent(sync, change)]


def is_concurrent(sync: Call, change: Call) -> bool:
    """Whether a sync and a change ran at the same time, at least in part. Two calls of one thread
    never do."""
    return change.begin <= sync.end and sync.begin <= change.end


def may_cover(sync: Call, change: Call) -> bool:
    """Whether a sync may cover a change, by their paths. A sync of everything, or of an unknown
    path, may cover each change of a file; each sync may cover a change of unknown paths. LogError
    if an argument isn't as strace writes it."""
    path, paths = synced_path(sync), changed_paths(change)
    if paths is None:
        return True
    return bool(paths) if path is None else path in paths


def synced_path(sync: Call) -> Optional[str]:
    """The path that strace shows for the file that an fsync or fdatasync covers; the file may have
    other names. None if strace shows no path of it, and for other syncs, which cover all files or a
    mapping. LogError if the path isn't as strace writes it."""
    return sync.descriptor().path if sync.name in ('fsync', 'fdatasync') else None


def changed_paths(change: Call) -> Optional[Set[str]]:
    """The paths of the files whose syncs cover a change: that of a descriptor's file, or those that
    paths_in_arguments() returns. None if not all paths are known; empty if the change is of no
    file, as a write to a pipe. LogError if a path isn't as strace writes it."""
    if change.name in DESCRIPTOR_CHANGES:
        path = change.descriptor(target_index(change)).path
        return set() if path is None else {path}
    # After its path, a setxattr has strings that are no paths.
    words = change.arguments[:1] if change.name in ATTRIBUTE_CHANGES else change.arguments
    return paths_in_arguments(words)


def target_index(change: Call) -> int:
    """The index of the argument with the descriptor whose file a call of DESCRIPTOR_CHANGES
    changes."""
    return TARGET_INDEXES.get(change.name, 0)


def paths_in_arguments(words: List[str]) -> Optional[Set[str]]:
    """The path in each string argument, and the path of its directory; symbolic links aren't
    followed. A relative path begins at the path that strace shows for a descriptor before it. None
    if strace shows no such path, or cut the string. LogError if a path isn't as strace writes it.
    """
    paths: Set[str] = set()
    base: Optional[str] = None
    for word in words:
        shown_path = arguments.parse_descriptor(word).path
        if shown_path is not None:
            base = shown_path
        elif word.startswith('"'):
            path = arguments.parse_path(word)
            if path is None or base is None and not path.startswith('/'):
                return None
            full_path = os.path.normpath(os.path.join(base or '/', path))
            paths |= {full_path, os.path.dirname(full_path)}
    return paths
