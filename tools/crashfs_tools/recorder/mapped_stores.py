"""Adds stores through mappings, as copies of the mapped files show them, and finds the calls before
which they were made."""

from __future__ import annotations

import bisect
from dataclasses import dataclass, field
from typing import Callable, Dict, Iterator, List, Optional, Set, Tuple

from crashfs_tools.common.file_bytes import Bytes
from crashfs_tools.common.sparse import PAGE_BYTES, SparseBytes, pages_to_compare

from .live_files import LiveFiles
from .live_tree import Node
from .mapped_files import RESTARTED_CALLS, STOPPING_CALLS, FileCopies, FileCopy
from .strace_log import Call

NOT_ALONE = (
    'stored through its mapping while other threads or processes ran: which of their '
    'calls it came before is not sure'
)
NOT_STOPPED = (
    f'stored through its mapping at about the time of a call ({", ".join(RESTARTED_CALLS)}) at '
    'which COMMAND was not stopped: which of the two came first is not sure'
)


@dataclass
class MappedStores:
    """The stores that copies of mapped files show. copy_indexes has the place of each copy in the
    order in which they were made, by the copy's id: they may be added in another order. A mapped
    file has a number, that of FileCopies. By it, `nodes` has the files whose mmap is translated,
    early_bytes what copies show of other files, and newest_indexes the index of the newest copy of
    the file that was added. unsure_copies is what unsure_copies() returns, once it is known."""

    files: LiveFiles
    copy_indexes: Dict[int, int]
    nodes: Dict[int, Node] = field(default_factory=dict)
    early_bytes: Dict[int, Bytes] = field(default_factory=dict)
    newest_indexes: Dict[int, int] = field(default_factory=dict)
    unsure_copies: Set[int] = field(default_factory=set)

    def add_node(self, number: int, node: Optional[Node]) -> None:
        """Adds the file with this number, whose mmap is translated, and the stores that were found
        before that. Nothing if the file isn't followed (None)."""
        if node is not None:
            self.nodes[number] = node
            if number in self.early_bytes:
                data = self.early_bytes.pop(number)
                add_stores(self.files, node, data, NOT_ALONE)

    def add_copy(self, copy: FileCopy, is_chosen: Callable[[Node], bool]) -> None:
        """Adds the stores that a copy shows to the trace and the live files, of the files for which
        is_chosen() is True, except those of which a later copy is added already. The bytes of a
        file whose mmap isn't translated yet are kept until then."""
        index = self.copy_indexes[id(copy)]
        for number, data in copy.bytes_by_number.items():
            if index < self.newest_indexes.get(number, 0):
                continue
            self.newest_indexes[number] = index
            node = self.nodes.get(number)
            if node is None:
                self.early_bytes[number] = data
            elif is_chosen(node):
                add_stores(self.files, node, data, self.doubt_of_order(copy, number))

    def doubt_of_order(self, copy: FileCopy, number: int) -> Optional[str]:
        """Why it isn't sure before which call the stores were made that a copy shows to the file
        with this number; None if it is."""
        if not copy.has_one_writer(number):
            return NOT_ALONE
        return NOT_STOPPED if id(copy) in self.unsure_copies else None


def copies_by_call(
    calls: List[Call], ordered_calls: List[Call], file_copies: FileCopies
) -> Dict[int, List[FileCopy]]:
    """The copies of each call, by its id: what they show was stored before the call. A copy's call
    is what call_after_stores() returns; copies without files, and the copy at the end, have none.
    `calls` are in the log's order, ordered_calls in the trace's."""
    indexes = {id(call): index for index, call in enumerate(ordered_calls)}
    newest_call: Optional[Call] = None
    last_calls: Dict[int, Call] = {}
    call_copies: Dict[int, List[FileCopy]] = {}
    for copy, calls_since_copy in copies_with_calls(calls, file_copies):
        newest_call = calls_since_copy[-1] if calls_since_copy else newest_call
        last_calls.update((call.thread, call) for call in calls_since_copy)
        if copy.bytes_by_number and newest_call is not None and not copy.is_last:
            last_call = last_calls.get(copy.thread, newest_call)
            call = call_after_stores(copy, last_call, calls_since_copy, indexes)
            call_copies.setdefault(id(call), []).append(copy)
    return call_copies


def copies_with_calls(
    calls: List[Call], file_copies: FileCopies
) -> Iterator[Tuple[FileCopy, List[Call]]]:
    """Yields each copy with the calls that ended in the log before it, but after the earlier copy.
    The calls are in the log's order."""
    ends = [call.end for call in calls]
    begin = 0
    for copy in file_copies.copies:
        end = bisect.bisect_right(ends, copy.line_number)
        yield copy, calls[begin:end]
        begin = end


def call_after_stores(
    copy: FileCopy, last_call: Call, calls_since_copy: List[Call], indexes: Dict[int, int]
) -> Call:
    """The call before which the stores that a copy shows were made. It is last_call, the stopped
    thread's last one. But if other threads ran, it is the first in the trace of the STOPPING_CALLS
    since the earlier copy, if there is any. `indexes` has the place of each call in the trace, by
    the call's id."""
    stopping_calls = [call for call in calls_since_copy if call.name in STOPPING_CALLS]
    if copy.is_alone or not stopping_calls:
        return last_call
    return min(stopping_calls, key=lambda call: indexes[id(call)])


def unsure_copies(calls: List[Call], file_copies: FileCopies) -> Set[int]:
    """The ids of the copies before which, but after the earlier copy, a call of RESTARTED_CALLS
    ended that did something, and at which no thread was stopped: what the copy shows may have been
    stored before or after that call. The calls are in the log's order."""
    restarts = ids_of_restarts(calls)
    return {
        id(copy)
        for copy, calls_since_copy in copies_with_calls(calls, file_copies)
        if any(id(call) not in restarts for call in unstopped_calls(copy, calls_since_copy))
    }


def ids_of_restarts(calls: List[Call]) -> Set[int]:
    """The ids of the calls before which the same call of their thread was interrupted. The calls
    are in the log's order."""
    earlier_calls: Dict[int, Call] = {}
    restarts = set()
    for call in calls:
        earlier = earlier_calls.get(call.thread)
        if earlier is not None and earlier.is_interrupted:
            restarts.add(id(call))
        earlier_calls[call.thread] = call
    return restarts


def unstopped_calls(copy: FileCopy, calls_since_copy: List[Call]) -> List[Call]:
    """The calls of RESTARTED_CALLS that did something, without the one at which the thread of the
    copy was stopped: its last one."""
    calls_of_thread = [call for call in calls_since_copy if call.thread == copy.thread]
    return [
        call
        for call in calls_since_copy
        if call.name in RESTARTED_CALLS and call.result > 0 and call not in calls_of_thread[-1:]
    ]


def add_stores(files: LiveFiles, node: Node, data: Bytes, doubt: Optional[str] = None) -> None:
    """Adds the stores that a copy of a mapped file shows, whose bytes are `data`: a write, for each
    page that differs, of the range that differs. A doubt of their order is reported. A copy whose
    length isn't the file's is only reported. Nothing if the file's bytes aren't followed."""
    if node.data is None:
        return
    if len(data) != node.size:
        files.recording.report(
            'a copy of the mapped file has another size than is known', node.name
        )
        return
    for page in pages_to_compare(node.data, SparseBytes.copy_of(data), node.size):
        page_end = page + PAGE_BYTES
        start, end = differing_range(node.data[page:page_end], data[page:page_end])
        if start == end:
            continue
        if doubt is not None:
            files.recording.report(doubt, node.name)
        files.write_bytes(node, page + start, data[page + start : page + end])
        if node.data is None:
            # The trace can't have the write, so the file's bytes aren't followed any more.
            return


def differing_range(old: bytes, new: bytes) -> Tuple[int, int]:
    """The smallest range that has all bytes in which two pages of one size differ: its start, and
    the offset after its last byte. Both are 0 if the pages are equal."""
    if old == new:
        return 0, 0
    offsets = [offset for offset in range(len(new)) if old[offset] != new[offset]]
    return offsets[0], offsets[-1] + 1
