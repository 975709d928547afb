"""The moments of a session at which it may crash, and how many lines are acknowledged there."""

from __future__ import annotations

from typing import Iterator, List, NamedTuple, Sequence

from crashfs_tools.common.trace import Operation, Say


class Moment(NamedTuple):
    """A moment of a session, after its first `operation_count` operations. From least_says to
    most_says lines may be acknowledged then. `line` is the number of the trace's line with the last
    operation before the moment; 0 if there is none."""

    operation_count: int
    least_says: int
    most_says: int
    line: int

    @property
    def line_counts(self) -> range:
        """Each number of lines that may be acknowledged at this moment, ascending."""
        return range(self.least_says, self.most_says + 1)


def crash_moments(operations: List[Operation], line_numbers: Sequence[int]) -> Iterator[Moment]:
    """The moments at which the disk may differ, from the start to the end: the start, and one after
    each operation that isn't a say. Says change nothing on the disk: those that follow an
    operation, or the start, belong to its moment. `line_numbers` has the number of each operation's
    line."""
    moment = Moment(operation_count=0, least_says=0, most_says=0, line=0)
    for count, (operation, line) in enumerate(zip(operations, line_numbers), 1):
        if isinstance(operation, Say):
            moment = moment._replace(most_says=moment.most_says + 1)
        else:
            yield moment
            moment = Moment(count, moment.most_says, moment.most_says, line)
    yield moment
