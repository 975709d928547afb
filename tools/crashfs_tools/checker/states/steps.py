"""A session's operations one by one, and the traces of its parts."""

from __future__ import annotations

import bisect
from dataclasses import dataclass
from typing import Iterator, List, Tuple

from crashfs_tools.common.command import Refused
from crashfs_tools.common.entry import Entries
from crashfs_tools.common.sparse import round_up_to_pages
from crashfs_tools.common.trace import Operation, Say, Trace, Truncate, Write
from crashfs_tools.common.trace_read import read_trace_with_numbers, tree_without_start
from crashfs_tools.common.tree import Tree, is_growth_past_page, start_lines

# A longer write is several steps, so that a window can end in it.
PIECE_BLOCKS = 64


@dataclass(frozen=True)
class Step:
    """An operation, or a part of a long write, with its line in the session and the note of that
    line (empty if it has none). size is how many micro-operations it is: 0 for a sync."""

    line: int
    operation: Operation
    note: str
    size: int


class Session:
    """A trace, and its operations as steps. places[k] is how many micro-operations come before step
    k; its last item counts all. end is the tree after all steps."""

    def __init__(self, name: str, text: str) -> None:
        """Reads the text of a trace. TraceError, which is a Refused, if any line makes no sense;
        then Refused, with `name` and the line, for the first operation that the tree doesn't allow.
        Start lines aren't checked: KeyError as start_tree()."""
        self.trace, numbers = read_trace_with_numbers(text)
        self.steps: List[Step] = []
        self.places = [0]
        self.end = start_tree(self.trace)
        for place, (line, operation) in enumerate(zip(numbers, self.trace.operations)):
            fault = self.end.fault(operation)
            if fault:
                raise Refused(f'{name}: line {line}: {fault}')
            self.add_steps(line, operation, self.trace.notes.get(place, ''))

    def add_steps(self, line: int, operation: Operation, note: str) -> None:
        """Applies the operation of a line to `end`, which must allow it. Adds the steps of the
        operation, each with the note, and for each adds to `places` how many micro-operations come
        up to its end."""
        for part in parts_of_operation(operation, self.end):
            self.end.apply(part)
            count = self.end.micro_operations
            self.steps.append(Step(line, part, note, count - self.places[-1]))
            self.places.append(count)

    def end_trace(self) -> str:
        """The text of a trace without operations that starts with the tree at the session's end,
        and has the version, profile and size of blocks of the session's trace."""
        return trace_text(
            Trace(
                *start_lines(self.end.entries, self.end.files),
                [],
                self.trace.version,
                self.trace.profile,
                self.trace.block,
            )
        )


def start_tree(trace: Trace) -> Tree:
    """The tree in which a trace begins, after its start lines. The tree has copies of their bytes,
    so that operations can be applied to it. Whether the lines fit each other isn't checked;
    KeyError if the source of a link is missing."""
    tree = tree_without_start(trace)
    for entry in trace.start:
        tree.add_start(entry)
    return tree


def parts_of_operation(operation: Operation, tree: Tree) -> Iterator[Operation]:
    """Yields the operation itself or, for a write longer than PIECE_BLOCKS blocks, its parts: a
    truncate to each new size of the file, then writes of up to so many blocks. The parts have the
    same micro-operations as the operation. `tree` must be the one before the operation, which it
    allows; the caller may apply each part to it as it comes."""
    if not isinstance(operation, Write) or len(operation.data) <= PIECE_BLOCKS * tree.block:
        yield operation
        return
    end = operation.offset + len(operation.data)
    lengths = lengths_before_write(tree, operation.path, end)
    yield from (Truncate(operation.path, length) for length in lengths)
    begin = operation.offset
    while begin < end:
        part_end = min(end, (begin // tree.block + PIECE_BLOCKS) * tree.block)
        data = operation.data[begin - operation.offset : part_end - operation.offset]
        yield Write(operation.path, begin, data)
        begin = part_end


def lengths_before_write(tree: Tree, path: str, end: int) -> Iterator[int]:
    """Yields the sizes, in order, that a file gets before a write up to the offset `end` changes
    its blocks: in version 4 first the end of the file's last page, if the write makes the file
    larger than that; then `end`. No size if the file doesn't grow; KeyError if it isn't in the
    tree."""
    size = len(tree.entries[path].data or b'')
    if tree.version >= 4 and is_growth_past_page(size, end):
        yield round_up_to_pages(size)
    if end > size:
        yield end


class Steps:
    """The steps of a session from `begin` on; says counts the acknowledged lines before it. tree is
    the tree there as these tools follow it. start has the same entries as the program gave them:
    which paths are links to one file, only `tree` knows."""

    def __init__(self, session: Session) -> None:
        """Begins at the first step, with the tree in which the trace begins. Only advance_to()
        moves `begin`, and never back."""
        self.session = session
        self.begin = 0
        self.says = 0
        self.tree = start_tree(session.trace)
        self.start = self.tree.entries.copy()

    def end_within(self, most_operations: int) -> int:
        """The step before which the longest part ends that begins at `begin` and has at most
        most_operations micro-operations; syncs after the last one belong to it. The part has at
        least one step, even if that is larger."""
        places = self.session.places
        end = bisect.bisect_right(places, places[self.begin] + most_operations) - 1
        return min(max(end, self.begin + 1), len(self.session.steps))

    def size_until(self, end: int) -> int:
        """How many micro-operations come from `begin` up to the step `end`, without that step."""
        return self.session.places[end] - self.session.places[self.begin]

    def advance_to(self, step: int, start: Entries) -> None:
        """Moves `begin` to a later step, by applying the operations before that step to `tree`.
        `start` must be the tree there as the program gives it; it isn't compared with `tree`."""
        for passed_step in self.session.steps[self.begin : step]:
            self.says += isinstance(passed_step.operation, Say)
            self.tree.apply(passed_step.operation)
        self.begin = step
        self.start = start

    def trace_until(self, end: int) -> Tuple[str, Tuple[int, ...]]:
        """The text of the trace from `begin` up to the step `end`, without that step; and for each
        line of this text the number of its line in the session, which is 0 for the header and the
        start lines. The parts of a long write have the same number."""
        steps = self.session.steps[self.begin : end]
        session_trace = self.session.trace
        header, start = start_lines(self.start, self.tree.files)
        notes = {place: step.note for place, step in enumerate(steps) if step.note}
        trace = Trace(
            header,
            start,
            [step.operation for step in steps],
            session_trace.version,
            session_trace.profile,
            session_trace.block,
            notes,
        )
        return trace_text(trace), (0,) * (1 + len(start)) + tuple(step.line for step in steps)


def trace_text(trace: Trace) -> str:
    """The text of a trace as its file has it: its lines, each with a newline at its end."""
    return ''.join(line + '\n' for line in trace.lines())
