"""What was seen of crash states on real file systems, and how a report says it."""

from __future__ import annotations

from dataclasses import dataclass, field
from enum import Enum
from typing import Any, Dict, List, NamedTuple, Sequence

from crashfs_tools.checker.running.runner import Outcome
from crashfs_tools.common.entry import Entries, Entry
from crashfs_tools.disks.disk import Crash

from .wording import fail_text, joined_by, size_text

# So many paths of a tree are shown.
SHOWN_PATHS = 12


class Reason(Enum):
    """Why no tried state has a disk's tree, by the words of a report: no crash state has the tree,
    one has it that wasn't tried, or the search for one ended at a limit."""

    OUTSIDE = 'outside the model'
    UNTRIED = 'not tried'
    UNKNOWN = 'not found'


class Explanation(NamedTuple):
    """Why no tried state has a disk's tree. searched_states is how many states were looked through
    for an UNKNOWN tree, else 0."""

    reason: Reason
    searched_states: int = 0

    @property
    def text(self) -> str:
        """The explanation as a report has it, such as `no crash state has this tree`."""
        if self.reason is Reason.OUTSIDE:
            return 'no crash state has this tree'
        if self.reason is Reason.UNTRIED:
            return 'a crash state has this tree, and is not among those that were tried'
        count = f'{self.searched_states:,}'
        return f'none of the {count} crash states that were looked through has this tree'


@dataclass
class DiskFailure:
    """A tree in which COMMAND failed and which no tried state has, with the first crash of each
    file system that left it. says has the numbers of acknowledged lines with which it failed."""

    outcome: Outcome
    says: List[int]
    crashes: Dict[str, Crash]
    tree: Entries
    explanation: Explanation

    @property
    def name(self) -> str:
        """The name of the failure's test, for JUnit and TAP: its cause, and why no tried state has
        the tree, in brackets."""
        return f'{self.outcome.cause} ({self.explanation.reason.value})'

    def lines(self) -> List[str]:
        """Three lines of a report: on which file systems and after which crashes the tree was seen,
        why no tried state has it, and its first SHOWN_PATHS paths, with the count of the others."""
        more = len(self.tree) - SHOWN_PATHS
        shown = [path_with_size(path, self.tree[path]) for path in sorted(self.tree)[:SHOWN_PATHS]]
        says = joined_by('or', list(map(str, self.says)))
        return [
            f'{sighting_text(list(self.crashes), self.crashes)}, says {says}',
            self.explanation.text,
            ', '.join(shown) + (f' and {more:,} more' if more > 0 else ''),
        ]

    def fields(self) -> Dict[str, Any]:
        """The failure as the JSON has it: with all paths of the tree, but not what is there, nor
        what COMMAND printed above the cause."""
        return {
            'cause': self.outcome.cause,
            'where': self.explanation.reason.value,
            'says': self.says,
            'crashes': crash_fields(self.crashes),
            'paths': sorted(self.tree),
        }


class DiskCounts(NamedTuple):
    """How many crashes there were on a file system, how many different trees they left, and in how
    many of these COMMAND failed or gave no answer. The fields have the names that the JSON has."""

    crashes: int
    different: int
    failing: int


@dataclass
class Sightings:
    """What was seen on file systems. counts has those of each, by its name. crashes_by_state has
    for the number of each state seen the first crash, by keep_first_crashes(), of each file system
    that left it. further_failures are those in trees that no tried state has."""

    counts: Dict[str, DiskCounts] = field(default_factory=dict)
    crashes_by_state: Dict[int, Dict[str, Crash]] = field(default_factory=dict)
    further_failures: List[DiskFailure] = field(default_factory=list)

    def crashes_of_states(self, numbers: Sequence[int]) -> Dict[str, Crash]:
        """The first crash of each file system that left one of the states with these numbers;
        without the file systems on which none of them was seen."""
        crashes: Dict[str, Crash] = {}
        for number in numbers:
            keep_first_crashes(crashes, self.crashes_by_state.get(number, {}))
        return crashes

    def add_crashes(self, numbers: Sequence[int], crashes: Dict[str, Crash]) -> None:
        """Adds crashes that left the states with these numbers to crashes_by_state: one of each
        file system, by its name."""
        for number in numbers:
            keep_first_crashes(self.crashes_by_state.setdefault(number, {}), crashes)

    def text_of_states(self, numbers: Sequence[int]) -> str:
        """On which file systems a crash left one of the states with these numbers, and which crash;
        and on which file systems none did."""
        return sighting_text(list(self.counts), self.crashes_of_states(numbers))

    def fields(self) -> Dict[str, Any]:
        """What the JSON has: the counts of each file system, the first crashes of each state that
        was seen, by its number, and the further failures."""
        counts = {name: counts._asdict() for name, counts in self.counts.items()}
        seen = sorted(self.crashes_by_state.items())
        states = {str(state): crash_fields(crashes) for state, crashes in seen}
        further = [failure.fields() for failure in self.further_failures]
        return {'filesystems': counts, 'states': states, 'further': further}

    def lines(self) -> List[str]:
        """A line of a report for each file system, with its counts."""
        return [
            f'{name}: {counts.crashes:,} crashes, {counts.different:,} different trees: '
            f'{fail_text(counts.failing)}'
            for name, counts in self.counts.items()
        ]


def keep_first_crashes(crashes: Dict[str, Crash], more: Dict[str, Crash]) -> None:
    """Adds `more` crashes to `crashes`; both are by the names of file systems. Of two crashes of
    one file system the lower one by Crash.rank stays: the one before which the kernel was made to
    write less, then the earlier one in the session, then the one in `crashes`."""
    for name, crash in more.items():
        if name not in crashes or crash.rank < crashes[name].rank:
            crashes[name] = crash


def sighting_text(names: Sequence[str], crashes: Dict[str, Crash]) -> str:
    """On which file systems of these names a state or a tree was seen, after which crash, and on
    which not. `crashes` has the crash for each file system on which it was seen; file systems that
    aren't in `names` are left out."""
    seen = [f'{name} ({crash_text(crashes[name])})' for name in names if name in crashes]
    unseen = [name for name in names if name not in crashes]
    if not seen:
        return f'not seen on {joined_by("or", unseen)}'
    others = f'; not on {joined_by("or", unseen)}' if unseen else ''
    return f'seen on {joined_by("and", seen)}{others}'


def crash_fields(crashes: Dict[str, Crash]) -> Dict[str, Any]:
    """What the JSON has of crashes, by the names of file systems: the line and the flush kind of
    each."""
    return {name: [crash.moment.line, crash.flush_kind.value] for name, crash in crashes.items()}


def crash_text(crash: Crash) -> str:
    """When a crash was, as text: after which line of the trace, or before the first operation, and
    what the kernel had written by then."""
    place = f'after line {crash.moment.line}' if crash.moment.line else 'before the first operation'
    return f'{place}, {crash.flush_kind.value}'


def path_with_size(path: str, entry: Entry) -> str:
    """A path with the size of the file there, or the target of the symbolic link, in parentheses;
    only the path of a directory."""
    return path if entry.is_directory else f'{path} ({size_text(entry)})'
