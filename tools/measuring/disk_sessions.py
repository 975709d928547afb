"""Sessions made on real file systems, and whether each disk after a crash is an allowed state."""

from __future__ import annotations

import re
from dataclasses import dataclass, field
from typing import Dict, Iterator, List, Set

from crashfs_tools.checker.findings.read_trees import TreeAndCount, tree_and_count
from crashfs_tools.checker.states.steps import trace_text
from crashfs_tools.common.trace import Trace
from crashfs_tools.disks.crashing import CrashMaker
from crashfs_tools.disks.disk import Disk, different_disks
from crashfs_tools.disks.filesystems import FileSystem
from crashfs_tools.disks.flushes import FlushKind
from crashfs_tools.reading import Reading, parse_trace
from crashfs_tools.reading.classes import SetClasses
from crashfs_tools.reading.lines import PROFILES
from crashfs_tools.reading.order import order_under, profile_names
from crashfs_tools.reading.trees import Trees
from inventory.markdown import table_lines

from .random_sessions import draw_session

# The profile that each file system is compared with.
PROFILE_OF = {'ext4': 'journal', 'xfs': 'journal', 'btrfs': 'blocks'}
# With how many operations a session is drawn, unless another number is asked for.
OPERATIONS = 7
# Equal bytes that follow each other.
RUN = re.compile(rb'(.)\1*', re.DOTALL)


@dataclass
class SessionResult:
    """What was found of a session on a file system. The fields are those of a line of
    results.jsonl; an old line that lacks `operations` is of a session with OPERATIONS."""

    filesystem: str
    seed: int
    # How many disks there were, how many of them differ, and how many different states `blocks`
    # allows.
    disks: int = 0
    different: int = 0
    states: int = 0
    # For each profile, how many of the different disks are among the states that it allows; and
    # texts of the disks that the file system's own profile doesn't allow.
    allowed: Dict[str, int] = field(default_factory=dict)
    outside: List[str] = field(default_factory=list)
    # With how many operations the session was drawn.
    operations: int = OPERATIONS


def allowed_trees(reading: Reading, profile: str) -> Set[TreeAndCount]:
    """Each tree that a profile allows a crash to leave, by its digest, with how many lines are
    acknowledged then. All different states are computed, so the session must be short. ReadingFault
    if the trace's version doesn't have the profile."""
    trees, classes = Trees(reading), SetClasses(reading, order_under(reading, profile))
    return {tree_and_count(trees, place_set) for place_set in classes.different_sets()}


def session_result(
    filesystem_name: str,
    seed: int,
    trace: Trace,
    disks: List[Disk],
    *,
    operation_count: int = OPERATIONS,
) -> SessionResult:
    """The result of a session on the file system of this name, from the different disks that its
    crashes left there. The session must be that of the seed, with operation_count operations. A
    profile allows a disk as is_allowed_disk() says. KeyError if PROFILE_OF has no such name."""
    reading = parse_trace(trace_text(trace).encode())
    allowed = {profile: allowed_trees(reading, profile) for profile in profile_names(reading)}
    outside = {
        profile: [disk for disk in disks if not is_allowed_disk(disk, trees)]
        for profile, trees in allowed.items()
    }
    return SessionResult(
        filesystem_name,
        seed,
        disks=sum(len(disk.crashes) for disk in disks),
        different=len(disks),
        states=len(allowed['blocks']),
        allowed={profile: len(disks) - len(outside[profile]) for profile in allowed},
        outside=[disk_text(disk) for disk in outside.get(PROFILE_OF[filesystem_name], [])],
        operations=operation_count,
    )


def is_allowed_disk(disk: Disk, trees: Set[TreeAndCount]) -> bool:
    """Whether `trees`, those of allowed_trees(), have a disk's tree with one of the numbers of
    acknowledged lines that the disk may have."""
    return any((disk.digest, count) in trees for count in disk.line_counts)


def disk_text(disk: Disk) -> str:
    """The first crash that left a disk, and each path on the disk but the root, with its content.
    The crash is given by the line of the last operation before it, or by `the start` if there is no
    such operation, and by its kind of flush."""
    crash = disk.crashes[0]
    paths = ', '.join(f'{path} {entry_text(disk, path)}' for path in disk.tree if path != '/')
    line = f'line {crash.moment.line}' if crash.moment.operation_count else 'the start'
    return f'{line}, {crash.flush_kind.value}: {paths}'


def entry_text(disk: Disk, path: str) -> str:
    """What is at a path of a disk: `directory`, the target of a symbolic link after an arrow, or a
    file's size and its bytes as runs of equal ones, such as `4: 3*b'a' 1*b'b'`. KeyError if there
    is nothing."""
    entry = disk.tree[path]
    if entry.link is not None:
        return f'-> {entry.link}'
    if entry.data is None:
        return 'directory'
    runs = ' '.join(f'{len(run[0])}*{run[1]!r}' for run in RUN.finditer(bytes(entry.data)))
    return f'{len(entry.data)}: {runs}'


class SessionMaker:
    """Makes sessions on one file system, with its images in a folder, and compares their disks. It
    must be used in a worker process: see become_worker()."""

    def __init__(self, filesystem: FileSystem, folder: str) -> None:
        self.filesystem = filesystem
        self.folder = folder

    def compare_session(self, seed: int, operation_count: int) -> SessionResult:
        """Draws the session of this seed, crashes it at each of its moments by all kinds of
        flushes, and compares the disks with the allowed sets. Refused or OSError as the methods of
        CrashMaker; the images are removed in any case."""
        trace = draw_session(seed, operation_count)
        maker = CrashMaker(self.filesystem, trace, self.folder)
        try:
            disks = different_disks(
                crashed_tree
                for moment in maker.moments
                for crashed_tree in maker.crashed_trees(moment, tuple(FlushKind))
            )
        finally:
            maker.remove_images()
        name = self.filesystem.name
        return session_result(name, seed, trace, disks, operation_count=operation_count)


def sums_table(results: List[SessionResult]) -> Iterator[str]:
    """The lines of a table of sums in Markdown: a row for each file system that has results, in the
    order of PROFILE_OF. KeyError if a result lacks one of PROFILES."""
    profile_columns = [f'by `{profile}`' for profile in PROFILES]
    columns = ['File system', 'Sessions', 'Disks', 'Different', *profile_columns]
    sessions_of = {
        filesystem: [result for result in results if result.filesystem == filesystem]
        for filesystem in PROFILE_OF
    }
    rows = (
        [filesystem, *(f'{count:,}' for count in session_sums(sessions))]
        for filesystem, sessions in sessions_of.items()
        if sessions
    )
    return table_lines(columns, rows)


def session_sums(sessions: List[SessionResult]) -> Iterator[int]:
    """How many sessions there are, how many disks they left, how many of these differ, and for each
    of PROFILES how many of the different disks it allows. KeyError as sums_table()."""
    yield len(sessions)
    yield sum(session.disks for session in sessions)
    yield sum(session.different for session in sessions)
    yield from (sum(session.allowed[profile] for session in sessions) for profile in PROFILES)
