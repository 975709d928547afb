"""The crash states of a trace, one after the other, for a loop in the calling program."""

from __future__ import annotations

import os
import tempfile
from contextlib import contextmanager
from dataclasses import dataclass, field
from pathlib import Path
from typing import Dict, Iterable, Iterator, List, Optional, Set

from crashfs_tools.checker.checked_trace import CheckedTrace, refuse_unreadable
from crashfs_tools.checker.options import NAME, Options
from crashfs_tools.checker.running.results import Results
from crashfs_tools.checker.states.layout import lay_out, read_trees
from crashfs_tools.checker.states.plan import Plan, PlannedTrace, equal_states_before
from crashfs_tools.common.archive import Member, members_of_tree, tree_of_members
from crashfs_tools.common.entry import Entries
from crashfs_tools.common.guard import Guard
from crashfs_tools.common.program import Crashfs
from crashfs_tools.common.removal import remove_tree

from .checks import path_text, refuse_wrong_options
from .reports import PathLike


@dataclass(frozen=True)
class CrashState:
    """What a crash may leave: its files, and the lines that were acknowledged before it. number is
    that of crashfs-check with the same options; profiles are the names of those that allow the
    state."""

    number: int
    acknowledged: List[str]
    profiles: List[str]
    tree: Entries = field(repr=False)

    @contextmanager
    def laid_out(self) -> Iterator[Path]:
        """Lays the state out in a new temporary directory, and yields its path. Modes are those of
        the state, but all belongs to this process's user. At the end of the `with` the directory is
        removed, whatever was done in it, except what is mounted there; each use makes a new one.
        OSError if it can't be made. While it is filled, the umask of the process is 0."""
        folder = tempfile.mkdtemp(prefix='crashfs-state-')
        try:
            directory = os.path.join(folder, str(self.number))
            lay_out(directory, members_of_tree(self.tree))
            yield Path(directory)
        finally:
            remove_tree(folder)

    def files(self) -> Dict[str, bytes]:
        """A copy of the bytes of each file, by its path below the directory, without a slash in
        front. A file that is mostly zeros is whole too. Directories and symbolic links are left
        out."""
        return {
            path: bytes(entry.data)
            for path, entry in members_of_tree(self.tree)
            if entry.data is not None
        }


def states(
    trace: PathLike,
    *,
    every: Optional[int] = None,
    families: bool = False,
    prefixes: bool = False,
    quick: bool = False,
    profile: Optional[str] = None,
    crashfs: Optional[PathLike] = None,
    unproved: bool = False,
) -> Iterator[CrashState]:
    """Yields each different crash state of a trace, ascending by number: those that crashfs-check
    lists by these options, also if it would try only some of them to save time.

    Nothing is read, and nothing raised, before the first state is asked for: then Refused for a
    trace that can't be read or has a fault, for a `crashfs` that isn't found, for an unknown
    profile, or for every with families, prefixes or quick. ProgramFault or PlanError if `crashfs`
    fails, OSError if a temporary file can't be made. Temporary files stay until the last state is
    passed, or the iterator is closed."""
    options = Options(os.fspath(trace), every=every, families=families, prefixes=prefixes)
    options.quick, options.profile = quick, profile
    options.crashfs, options.unproved = path_text(crashfs), unproved
    refuse_wrong_options(options)
    refuse_unreadable(os.fspath(trace))
    program = Crashfs.find_or_second_reading(options.crashfs, is_unproved=unproved)
    with Guard(NAME, may_reap=False) as guard:
        checked_trace = CheckedTrace.read(options, program, guard)
        last_plan: Optional[Plan] = None
        for planned in checked_trace.all_planned():
            numbers_before = equal_states_before(last_plan, planned.plan) if last_plan else {}
            results = Results(planned.plan, numbers_before=numbers_before)
            numbers = set(results.own_numbers.values())
            yield from states_of_window(checked_trace, planned, numbers)
            last_plan = planned.plan


def states_of_window(
    checked_trace: CheckedTrace, planned: PlannedTrace, numbers: Set[int]
) -> Iterator[CrashState]:
    """Yields the states of one window that have these numbers, ascending, each with its files.
    ProgramFault if `crashfs` fails, after the states before that."""
    texts, environment = checked_trace.lines.acknowledged, checked_trace.guard.environment
    for number, tree in read_trees(checked_trace.program, planned, numbers, environment, full_tree):
        state = planned.plan.state(number)
        profiles = planned.plan.profile_names_of(state)
        yield CrashState(number, texts[: state.says], profiles, tree)


def full_tree(_: int, members: Iterable[Member]) -> Entries:
    """A use_tree() for read_trees(): the tree of a state as entries by their paths."""
    return tree_of_members(members)
