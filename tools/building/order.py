"""Which library of the program is proved next."""

from __future__ import annotations

import threading
from dataclasses import dataclass, field
from functools import lru_cache
from pathlib import Path
from typing import Dict, Iterator, List, NamedTuple, Optional, Set

from .crates import TOP, crates_below

# Each further job of a check takes more than half as much memory again.
MOST_JOBS = 3
# Over so many crates one job is as fast: each would prove again how the types below are dropped.
MANY_BELOW = 16


def paths_of_texts(crate_folder: Path) -> Iterator[Path]:
    """The files and folders below src/, specs/ and proofs/ of a crate, in no particular order."""
    folders = (crate_folder / name for name in ('src', 'specs', 'proofs'))
    return (path for folder in folders for path in folder.rglob('*'))


def count_crate_lines(name: str) -> int:
    """How many lines the texts of a crate have: the more, the longer its check takes. 0 if there is
    no such crate; OSError if a text can't be read."""
    paths = (path for path in paths_of_texts(TOP / 'crates' / name) if path.is_file())
    return sum(len(path.read_bytes().splitlines()) for path in paths)


def chain_lengths(uses: Dict[str, List[str]]) -> Dict[str, int]:
    """For each crate, how many lines the texts of the longest chain of crates have that begins with
    it, and in which each crate uses the one before. Used crates that are no keys of `uses` are
    ignored. RecursionError if there is a cycle, which library_uses() refuses; OSError as
    count_crate_lines()."""
    users = {name: [user for user in uses if name in uses[user]] for name in uses}

    @lru_cache(maxsize=None)
    def length_from(name: str) -> int:
        """The length of the longest chain that begins with a crate."""
        return count_crate_lines(name) + max((length_from(user) for user in users[name]), default=0)

    return {name: length_from(name) for name in uses}


class NextCheck(NamedTuple):
    """The check that is begun next: its crate, and its jobs, the number of its processors."""

    crate: str
    jobs: int


@dataclass
class Work:
    """What is left to prove, shared by threads, one for each copy of the repository. uses and
    chain_lengths are as library_uses() and chain_lengths() return them; old_stamps has the stamp of
    each library that the repository itself had when the build began. Threads hold change_condition
    to change the rest: proved_in, the copy in which each crate was proved; begun_crates, whose
    checks have begun; jobs, the number of processors of each running check; and failed_crate, the
    first that was not proved. The thread that works in the repository itself holds top_lock: the
    one whose own copy this is, or one whose crate seems to need no proof there."""

    uses: Dict[str, List[str]]
    chain_lengths: Dict[str, int]
    processors: int
    old_stamps: Dict[str, bytes] = field(default_factory=dict)
    proved_in: Dict[str, Path] = field(default_factory=dict)
    begun_crates: Set[str] = field(default_factory=set)
    jobs: Dict[str, int] = field(default_factory=dict)
    failed_crate: Optional[str] = None
    change_condition: threading.Condition = field(default_factory=threading.Condition)
    top_lock: threading.Lock = field(default_factory=threading.Lock)

    def ready_crates(self) -> List[str]:
        """The crates whose checks may begin: no check of them has begun, and the crates that they
        use are proved. The caller must hold change_condition."""
        return [
            crate
            for crate in self.uses
            if crate not in self.begun_crates
            and all(lower in self.proved_in for lower in self.uses[crate])
        ]

    def jobs_wanted(self, name: str, spare_processors: int) -> int:
        """How many processors a ready crate should get. One if MANY_BELOW crates or more are below
        it. Else all of spare_processors, which the other ready crates don't need; but at least one,
        at least two if its chain is longer than those of all running checks, and at most MOST_JOBS.
        The caller must hold change_condition."""
        if len(crates_below(self.uses, name)) >= MANY_BELOW:
            return 1
        is_longest = all(
            self.chain_lengths[name] > self.chain_lengths[crate] for crate in self.jobs
        )
        return min(MOST_JOBS, max(2 if is_longest else 1, spare_processors))

    def next_check(self) -> Optional[NextCheck]:
        """The check to begin now: of the ready crate with the longest chain, with jobs_wanted(), or
        fewer if fewer processors are idle. None if no check can begin now: no crate is ready, or no
        processor idle. Changes nothing; the caller must hold change_condition."""
        ready_crates = self.ready_crates()
        idle_processors = self.processors - sum(self.jobs.values())
        if not ready_crates or idle_processors < 1:
            return None
        name = max(ready_crates, key=lambda crate: self.chain_lengths[crate])
        jobs = self.jobs_wanted(name, idle_processors - (len(ready_crates) - 1))
        return NextCheck(name, min(jobs, idle_processors))

    def begin_next_crate(self) -> Optional[NextCheck]:
        """Waits until a check can begin, marks its crate as begun, and returns it. None if all are
        begun, or a crate was not proved. The caller must call end_crate() for each crate that it
        gets: until then other threads may wait."""
        with self.change_condition:
            while not self.failed_crate and len(self.begun_crates) < len(self.uses):
                check = self.next_check()
                if check:
                    self.begun_crates.add(check.crate)
                    self.jobs[check.crate] = check.jobs
                    return check
                self.change_condition.wait()
            return None

    def end_crate(self, name: str, copy: Optional[Path]) -> None:
        """Notes that the check of a crate has ended. `copy` is the copy in which the crate is
        proved, or None if it isn't: then no other crate is begun. Wakes the threads that wait.
        KeyError if the crate isn't being checked, as after an earlier call."""
        with self.change_condition:
            del self.jobs[name]
            if copy:
                self.proved_in[name] = copy
            else:
                self.failed_crate = self.failed_crate or name
            self.change_condition.notify_all()
