"""What a check does: the values of the options of crashfs-check."""

from __future__ import annotations

import os
from dataclasses import dataclass, field
from typing import Callable, List, NamedTuple, Optional

from .address import Address

NAME = 'crashfs-check'
# Each job is a process, and one of the program.
MOST_JOBS = 1_024
# So many different crash states are all tried by default, if they take no longer.
MOST_STATES, MOST_SECONDS = 20_000, 600.0
# So many sets are drawn at random if the crash states are more; with --time-limit more of them.
DRAWS, LIMITED_DRAWS = 1_000, 10_000
# A recovery that takes longer, in seconds, gave no answer.
TIMEOUT = 10.0

# Called with a directory and the acknowledged lines; it raises what is wrong.
RecoveryFunction = Callable[[str, List[str]], object]


def processor_count() -> int:
    """How many processors this process may use."""
    return len(os.sched_getaffinity(0))


class Shard(NamedTuple):
    """One of so many parts of the states; parts are counted from 1."""

    part: int = 1
    parts: int = 1

    def share_of(self, numbers: List[int]) -> List[int]:
        """This part of the numbers of the states to try: of n parts the k-th one has each n-th
        number, from the k-th on."""
        return numbers[self.part - 1 :: self.parts]


class StateNumber(NamedTuple):
    """The state that --state names: a state of the trace, by its number. With recovery_number it is
    the state with that number of the recovery of this state."""

    number: int
    recovery_number: Optional[int] = None


@dataclass
class Options:
    """What a check does, as the options of the command line say it, by their names; command is what
    follows `--`. function is a recovery in the place of COMMAND. window is the most
    micro-operations of a window, for tests. With keeps_all, which is for programs, the report keeps
    the outcome of each state, and what --json and --html need."""

    trace: Optional[str] = None
    command: List[str] = field(default_factory=list)
    jobs: int = field(default_factory=processor_count)
    shard: Shard = Shard()
    every: Optional[int] = None
    families: bool = False
    profile: Optional[str] = None
    prefixes: bool = False
    quick: bool = False
    window: Optional[int] = None
    lost: bool = False
    files: bool = False
    nested: int = 0
    state: Optional[StateNumber] = None
    fail_fast: bool = False
    time_limit: Optional[float] = None
    json: Optional[str] = None
    resume: Optional[str] = None
    junit: Optional[str] = None
    tap: Optional[str] = None
    html: Optional[str] = None
    timeout: float = TIMEOUT
    crashfs: Optional[str] = None
    unproved: bool = False
    serve: Optional[Address] = None
    uname: Optional[str] = None
    disks: Optional[List[str]] = None
    merge: Optional[List[str]] = None
    accept: Optional[str] = None
    cache: Optional[str] = None
    function: Optional[RecoveryFunction] = None
    keeps_all: bool = False

    @property
    def recovery_name(self) -> str:
        """What the lines of a check call the recovery: `COMMAND`, unless it is a function."""
        return 'COMMAND' if self.function is None else 'the recovery'

    @property
    def has_families_only_if_given(self) -> bool:
        """Whether the families --lost and --files are tried only if they are given. This is so with
        --quick and --prefixes, and with --serve, whose plan is that of the server."""
        return self.quick or self.prefixes or self.serve is not None

    @property
    def may_try_all(self) -> bool:
        """Whether all crash states are asked for, not only families. They are tried if they aren't
        too many (most_states) and not too slow (most_seconds). False for families, even if `every`
        is set."""
        return not (self.families or self.has_families_only_if_given)

    @property
    def most_states(self) -> int:
        """The number of different crash states up to which all of them are tried, for the plan of
        the trace or of each window."""
        return self.every or MOST_STATES

    @property
    def draw_count(self) -> int:
        """How many sets are drawn at random if not all crash states can be tried, for the plan of
        the trace or of each window. No set is drawn for a plan whose sets can't be counted."""
        return LIMITED_DRAWS if self.time_limit is not None else DRAWS

    @property
    def most_seconds(self) -> float:
        """How many seconds all crash states of the trace, or of each window, may take at most; if
        they would take longer, only some are tried. Infinite with --every or --time-limit, and for
        a shard, which has only a part of them. If only families are asked for, they may take any
        time."""
        has_no_limit = self.every is not None or self.time_limit is not None
        return float('inf') if has_no_limit or self.shard.parts > 1 else MOST_SECONDS

    @property
    def has_lost(self) -> bool:
        """Whether the family --lost is tried: by default, or because it is given."""
        return self.lost or not self.has_families_only_if_given

    @property
    def has_files(self) -> bool:
        """Whether the family --files is tried, by the same rule as --lost."""
        return self.files or not self.has_families_only_if_given
