"""Which states real file systems leave: the session is made again on them, each disk after a crash
is looked for among the crash states, and COMMAND is run on those disks that no tried state has."""

from __future__ import annotations

import os
import time
from dataclasses import dataclass
from typing import Callable, Dict, Iterator, List, NamedTuple, Optional, Sequence, Set, Tuple

from crashfs_tools.checker.running.runner import GOOD, Outcome, refuse_left_processes
from crashfs_tools.checker.running.trials import Trials
from crashfs_tools.checker.states.layout import lay_out
from crashfs_tools.common.archive import members_of_tree
from crashfs_tools.common.entry import Entries
from crashfs_tools.common.guard import Guard
from crashfs_tools.common.removal import remove_tree
from crashfs_tools.common.trace_read import read_trace_with_numbers
from crashfs_tools.disks.disk import Crash, Disk, digest_of
from crashfs_tools.disks.filesystems import (
    IMAGES,
    most_session_bytes,
    filesystems_by_names,
    with_room_for,
)
from crashfs_tools.disks.pool import DiskPool
from crashfs_tools.reading import parse_trace
from crashfs_tools.reading.classes import SetClasses
from crashfs_tools.reading.order import Order
from crashfs_tools.reading.trees import Trees

from .read_trees import TreeAndCount, tree_and_count
from .sightings import (
    DiskCounts,
    DiskFailure,
    Explanation,
    Reason,
    Sightings,
    keep_first_crashes,
)

MEMORY = '/dev/shm'
# So many processes make disks for each job.
DISKS_AT_ONCE = 3
# So many different crash states are looked through for a disk's tree, and for so long.
MOST_STATES, MOST_SECONDS = 20_000, 20


@dataclass
class DiskTree:
    """A tree on disks, by its digest and its entries, with a number of acknowledged lines (says),
    and the first crash of each file system that left them, by the file system's name."""

    digest: str
    says: int
    entries: Entries
    crashes: Dict[str, Crash]

    @property
    def tree_and_count(self) -> TreeAndCount:
        """The tree by its digest, and the number of acknowledged lines."""
        return self.digest, self.says


class TriedTree(NamedTuple):
    """A tree on disks, and the outcome of COMMAND there. is_of_state says whether a tried state has
    the tree: then the outcome is that of the state."""

    tree: DiskTree
    outcome: Outcome
    is_of_state: bool


def search_disks(trials: Trials, outcomes: Dict[int, Outcome]) -> Sightings:
    """Makes the session again on the file systems of --disks, and returns what was seen; outcomes
    are those of the states, by their numbers. Shows its progress, and may take hours. Images are in
    memory if there is room, since a crash is then made in a fraction of a second; they are removed
    in any case. Exceptions as in DiskSearch.run(); OSError also if the trace is gone."""
    with open(trials.planned.trace, 'rb') as file:
        trace_bytes = file.read()
    text = trace_bytes.decode('utf-8', 'surrogateescape')
    trace, line_numbers = read_trace_with_numbers(text)
    size = most_session_bytes(trace)
    filesystems = [
        with_room_for(filesystem, size)
        for filesystem in filesystems_by_names(trials.options.disks or [])
    ]
    image_bytes = sum(filesystem.size for filesystem in filesystems)
    all_bytes = IMAGES * process_count(trials) * image_bytes
    with Guard('crashfs-disks', MEMORY if has_room(MEMORY, all_bytes) else None) as guard:
        search = DiskSearch(trials, outcomes, trace_bytes)
        pool = DiskPool(filesystems, trace, guard.directory, line_numbers=line_numbers)
        return search.run(pool, trials.workplace.progress.show_moments)


def process_count(trials: Trials) -> int:
    """How many processes make disks at once: DISKS_AT_ONCE for each job, since they mostly wait for
    a mount."""
    return DISKS_AT_ONCE * trials.options.jobs


def has_room(folder: str, size: int) -> bool:
    """Whether the file system of a folder has more than `size` bytes free, and this user may write
    in the folder. False if the folder isn't there. Nothing is reserved."""
    try:
        status = os.statvfs(folder)
    except OSError:
        return False
    return os.access(folder, os.W_OK) and status.f_bavail * status.f_frsize > size


class DiskSearch:
    """Looks for the tree of each disk among the states, and runs COMMAND in the trees that no tried
    state has. outcomes has the outcomes of the states by their numbers, and trace_bytes is the
    content of the trace's file."""

    def __init__(self, trials: Trials, outcomes: Dict[int, Outcome], trace_bytes: bytes) -> None:
        """COMMAND is run by a checker of this process, which notes what can't be ended."""
        self.trials = trials
        self.outcomes = outcomes
        self.trace_bytes = trace_bytes
        self.checker = trials.new_checker()

    def run(self, pool: DiskPool, on_step: Callable[[int, int], None]) -> Sightings:
        """Makes the disks, and returns what was seen on them. on_step is called with how many
        moments are done and how many there are, each counted once for each file system. Refused if
        an image can't be made or mounted, a process is killed, or COMMAND can't be started;
        LeftRunning if COMMAND leaves what can't be ended; an OSError, workers.Fault, ProgramFault
        or ReadingFault for other faults."""
        disks = pool.disks(process_count(self.trials), on_step)
        sightings = Sightings()
        tried_trees = list(self.try_trees(different_trees(disks), sightings))
        refuse_left_processes(self.checker.left_processes)
        failing = [tried for tried in tried_trees if tried.outcome.result != GOOD]
        sightings.counts = {
            name: filesystem_counts(name, disks_of_one, failing)
            for name, disks_of_one in disks.items()
        }
        further = [(tried.tree, tried.outcome) for tried in failing if not tried.is_of_state]
        sightings.further_failures = explain_failures(self.trace_bytes, further)
        return sightings

    def try_trees(self, trees: List[DiskTree], sightings: Sightings) -> Iterator[TriedTree]:
        """Yields each tree with its outcome, which is that of the first tried state that has the
        tree or, if none has it, that of a run of COMMAND. Adds the tree's crashes to the sightings
        of all listed states that have the tree. Exceptions as in state_numbers_by_tree() and
        run_in_tree()."""
        numbers_by_tree = self.state_numbers_by_tree()
        for tree in trees:
            numbers = numbers_by_tree.get(tree.tree_and_count, [])
            sightings.add_crashes(numbers, tree.crashes)
            known_outcome = self.known_outcome(numbers)
            outcome = known_outcome or self.run_in_tree(tree)
            yield TriedTree(tree, outcome, is_of_state=known_outcome is not None)

    def state_numbers_by_tree(self) -> Dict[TreeAndCount, List[int]]:
        """The ascending numbers of all listed states, tried or not, by the tree and the number of
        acknowledged lines that they leave. ProgramFault if the program fails, KeyError if it lacks
        a tree."""
        listed = self.trials.plan.listed
        trees = self.trials.trees.read({state.same for state in listed})
        digests = {number: digest_of(tree) for number, tree in trees}
        numbers: Dict[TreeAndCount, List[int]] = {}
        for state in listed:
            numbers.setdefault((digests[state.same], state.says), []).append(state.number)
        return numbers

    def known_outcome(self, numbers: Sequence[int]) -> Optional[Outcome]:
        """The outcome of the first tried state among those with these numbers; None if none of them
        was tried."""
        return next((self.outcomes[number] for number in numbers if number in self.outcomes), None)

    def run_in_tree(self, tree: DiskTree) -> Outcome:
        """Lays out a tree that no tried state has, runs COMMAND there, and returns its outcome,
        which isn't cached; the directory is removed. CRASHFS_STATE is always the first number after
        those of the listed states. OSError if the tree can't be laid out: a part of it stays. Other
        exceptions as in Checker.run()."""
        directory = os.path.join(self.trials.guard.directory, 'disk')
        lay_out(directory, members_of_tree(tree.entries))
        try:
            plan = self.trials.plan
            return self.checker.run(plan.first + len(plan.listed), tree.says, directory)
        finally:
            remove_tree(directory)


def filesystem_counts(name: str, disks: List[Disk], failing: List[TriedTree]) -> DiskCounts:
    """The counts of the file system of this name, from its different disks. `failing` are the trees
    of all file systems in which COMMAND failed or gave no answer. One that fails with several
    numbers of acknowledged lines counts once."""
    return DiskCounts(
        crashes=sum(len(disk.crashes) for disk in disks),
        different=len(disks),
        failing=len({tried.tree.digest for tried in failing if name in tried.tree.crashes}),
    )


def different_trees(disks: Dict[str, List[Disk]]) -> List[DiskTree]:
    """Each tree of some disks, once for each number of lines that may be acknowledged with it, with
    the first crash of each file system. disks has those of each file system by its name."""
    trees: Dict[TreeAndCount, DiskTree] = {}
    for tree in trees_after_crashes(disks):
        first = trees.setdefault(tree.tree_and_count, tree)
        keep_first_crashes(first.crashes, tree.crashes)
    return list(trees.values())


def trees_after_crashes(disks: Dict[str, List[Disk]]) -> List[DiskTree]:
    """The tree after each crash of some disks, once for each number of lines that may be
    acknowledged then, with only this crash. disks is as in different_trees()."""
    return [
        DiskTree(disk.digest, says, disk.tree, {name: crash})
        for name, disks_of_one in disks.items()
        for disk in disks_of_one
        for crash in disk.crashes
        for says in crash.moment.line_counts
    ]


def explain_failures(
    trace_bytes: bytes, failing_trees: List[Tuple[DiskTree, Outcome]]
) -> List[DiskFailure]:
    """The failures in trees that no tried state has, which are given with their outcomes. Searches
    the crash states for the trees, so each failure says why no tried state has its tree. Failures
    with the same tree, cause and reason are one, with all numbers of lines, the outcome of the
    first of these, and the first crash of each file system. ReadingFault as search_trees()."""
    wanted = {tree.tree_and_count for tree, _ in failing_trees}
    result = search_trees(trace_bytes, wanted)
    failures: Dict[Tuple[str, str, Reason], DiskFailure] = {}
    for tree, outcome in failing_trees:
        explanation = result.explanation(tree.tree_and_count)
        key = (tree.digest, outcome.cause, explanation.reason)
        failure = failures.setdefault(key, DiskFailure(outcome, [], {}, tree.entries, explanation))
        failure.says.append(tree.says)
        keep_first_crashes(failure.crashes, tree.crashes)
    return list(failures.values())


class SearchResult(NamedTuple):
    """Which of the wanted trees are left by an allowed set, how many different states were looked
    through, and whether the search is whole: it didn't end at a limit."""

    found: Set[TreeAndCount]
    searched_states: int
    is_whole: bool

    def explanation(self, tree: TreeAndCount) -> Explanation:
        """Why no tried state has a wanted tree: UNTRIED if an allowed set leaves the tree, OUTSIDE
        if none does, UNKNOWN if the search ended at a limit without finding one."""
        if tree in self.found:
            return Explanation(Reason.UNTRIED)
        if self.is_whole:
            return Explanation(Reason.OUTSIDE)
        return Explanation(Reason.UNKNOWN, self.searched_states)


def search_trees(trace_bytes: bytes, wanted: Set[TreeAndCount]) -> SearchResult:
    """Looks for trees among the different crash states of the trace's own profile, by the second
    reading. The search ends when all are found or all states were looked through, and isn't whole
    if it ends at MOST_STATES or MOST_SECONDS. ReadingFault if there are trees to look for, and the
    trace has a fault."""
    if not wanted:
        return SearchResult(set(), 0, is_whole=True)
    reading = parse_trace(trace_bytes)
    trees = Trees(reading)
    found: Set[TreeAndCount] = set()
    deadline = time.monotonic() + MOST_SECONDS
    searched_states = 0
    for kept_set in SetClasses(reading, Order(reading)).different_sets():
        if searched_states >= MOST_STATES or time.monotonic() > deadline:
            return SearchResult(found, searched_states, is_whole=False)
        searched_states += 1
        found |= {tree_and_count(trees, kept_set)} & wanted
        if found == wanted:
            break
    return SearchResult(found, searched_states, is_whole=True)
