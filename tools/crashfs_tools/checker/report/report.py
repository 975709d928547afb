"""What is reported of a check, window by window, and its verdict."""

from __future__ import annotations

import time
from dataclasses import dataclass, field, replace
from typing import TYPE_CHECKING, List, NamedTuple, Optional, Tuple

from crashfs_tools.checker.findings.advice import AllSyncs, FailingCounts
from crashfs_tools.checker.findings.groups import Findings, Group, merged_groups, set_all_advice
from crashfs_tools.checker.findings.accepted_failures import AcceptedFailure, AcceptedFailures
from crashfs_tools.checker.running.results import Head
from crashfs_tools.checker.running.runner import BAD, NO_ANSWER, Outcome
from crashfs_tools.checker.states.plan import State
from crashfs_tools.common.command import NONE_FAILS, NOT_ALL_TRIED, SOME_FAIL
from crashfs_tools.common.trace import JOURNAL, ORDERED

from .counts import StateCounts, counts_by_profile
from .json_text import COMPACT, as_json, pack_text

if TYPE_CHECKING:
    from crashfs_tools.checker.findings.sightings import DiskFailure, Sightings
    from crashfs_tools.checker.findings.second_crashes import Recovery, SecondCrash

    from .drawing import Drawing


class StateRow(NamedTuple):
    """A state, its outcome, and the names of the profiles that allow it."""

    state: State
    outcome: Outcome
    profiles: List[str]


class ReportedWindow(NamedTuple):
    """What a report keeps of a window: its groups, all advised syncs (None if they weren't tried),
    and packed_results(), empty unless the report keeps what the JSON has."""

    groups: List[Group]
    all_syncs: Optional[AllSyncs]
    packed_results: bytes


@dataclass
class CheckReport:
    """The findings of a check, window by window; none at first. With has_json it keeps all that the
    JSON has, with has_page the drawings of the page, and with has_states the outcome of each state.
    Otherwise it keeps little of each window. accept_list has the failures of --accept, None without
    --accept. begin is when the report was made, from which the time of the check is counted."""

    head: Head
    has_json: bool = False
    has_page: bool = False
    has_states: bool = False
    accept_list: Optional[AcceptedFailures] = None
    begin: float = field(default_factory=time.monotonic)
    counts: StateCounts = field(default_factory=StateCounts)
    # The names of the trace's profiles; none before the first window.
    profiles: Tuple[str, ...] = ()
    state_outcomes: List[StateRow] = field(default_factory=list)
    windows: List[ReportedWindow] = field(default_factory=list)
    drawings: List[Drawing] = field(default_factory=list)
    recoveries: List[Recovery] = field(default_factory=list)
    sightings: Optional[Sightings] = None
    # How many runs of COMMAND were those of earlier checks.
    cache_hits: int = 0
    # Options that were given and not done, each with the reason.
    not_done: List[str] = field(default_factory=list)
    # Asked if COMMAND passes where all that was acknowledged is lost; else empty.
    total_loss_question: str = ''

    def add(self, findings: Findings) -> None:
        """Adds the findings of a window; with has_page also the window's drawing, if it is the
        first one or has failures. The report has the findings' own groups, not copies: what is
        changed in them later is in the report too."""
        self.counts.add(findings)
        self.profiles = findings.plan.profiles.names
        if self.has_states:
            self.state_outcomes += state_rows(findings)
        self.windows.append(self.reported_window(findings))
        if self.has_page and (findings.groups or not self.drawings):
            from .drawing import drawing_of

            self.drawings.append(drawing_of(findings))

    def replace_last_window(self, findings: Findings) -> None:
        """Replaces the groups, the advised syncs and the results of the last window that was added
        by those of its findings, to which something was added since. The counts, the outcomes of
        states and the drawing stay. A window must have been added."""
        self.windows[-1] = self.reported_window(findings)

    def reported_window(self, findings: Findings) -> ReportedWindow:
        """What the report keeps of the window of some findings, as it is now."""
        results = packed_results(findings) if self.has_json else b''
        return ReportedWindow(findings.groups, findings.all_syncs, results)

    @property
    def packed_windows(self) -> List[bytes]:
        """The packed results of all windows; none if the report was made without has_json."""
        return [window.packed_results for window in self.windows if window.packed_results]

    @property
    def seconds(self) -> float:
        """How many seconds have passed since the report was made, at the beginning of the check."""
        return time.monotonic() - self.begin

    def groups(self) -> List[Group]:
        """Copies of the groups of all windows, the largest first. Groups with the same key become
        one. The advice is made again, accepted failures are marked, and one group gets the version
        hint. Each call makes new copies, which may be slow."""
        merged = merged_groups(
            replace(group, states=list(group.states), advice=replace(group.advice))
            for window in self.windows
            for group in window.groups
        )
        set_all_advice(merged, self.head.lines)
        for group in merged:
            self.mark_accepted(group)
        add_version_hint(merged)
        return merged

    def mark_accepted(self, group: Group) -> None:
        """Sets the acceptance of a group by --accept. A group whose example gave no answer stays as
        it is: what it would have answered isn't known."""
        if self.accept_list is not None and group.outcome.result == BAD:
            group.acceptance = self.accept_list.acceptance_of(group.as_accepted)

    def recovery_groups(self) -> List[Tuple[Group, SecondCrash]]:
        """The entries of second_crash_entries() for all recoveries, each with a copy of its group,
        in which accepted failures are marked. A recovery with a fault has no entry."""
        if not self.recoveries:
            return []
        from crashfs_tools.checker.findings.second_crashes import second_crash_entries

        tried = [recovery for recovery in self.recoveries if not recovery.fault]
        entries = second_crash_entries(tried)
        for group, _ in entries:
            self.mark_accepted(group)
        return entries

    def missing_accepted_failures(self) -> List[AcceptedFailure]:
        """The failures of --accept that no group of all_groups() is; empty without --accept. A
        group counts also if the failure has expired, and if the group's example gave no answer.
        What failed on disks only doesn't count."""
        if self.accept_list is None:
            return []
        return self.accept_list.entries_without(group.as_accepted for group in self.all_groups())

    def all_groups(self) -> List[Group]:
        """Copies of all groups: those of groups(), then those of second crashes."""
        return [*self.groups(), *(group for group, _ in self.recovery_groups())]

    def all_advised_syncs(self) -> Optional[AllSyncs]:
        """The advised syncs of all windows with failures as one, with the sums of their counts, in
        which a state that two windows have counts twice. None if no window has failures, or if the
        syncs of one of these windows weren't tried."""
        with_failures = [window.all_syncs for window in self.windows if window.groups]
        tried = [syncs for syncs in with_failures if syncs is not None]
        if not tried or len(tried) < len(with_failures):
            return None
        points = frozenset(point for syncs in tried for point in syncs.points)
        counts = [syncs.failing_counts for syncs in tried]
        before = sum(count.before for count in counts)
        after = sum(count.after for count in counts)
        return AllSyncs(points, FailingCounts(before, after))

    def disk_failures(self) -> List[DiskFailure]:
        """The failures on real disks that no tried state has; none without --disks."""
        return self.sightings.further_failures if self.sightings is not None else []

    @property
    def status(self) -> int:
        """The exit status. NOT_ALL_TRIED if a state gave no answer; else SOME_FAIL if a group, also
        of second crashes, isn't accepted, or something fails on disks only; else NOT_ALL_TRIED if
        is_whole is False; else NONE_FAILS. No answer after a second crash, or on a disk, counts as
        a failure."""
        if self.counts.results[NO_ANSWER]:
            return NOT_ALL_TRIED
        if self.disk_failures() or any(group.accepted_entry is None for group in self.all_groups()):
            return SOME_FAIL
        return NONE_FAILS if self.is_whole else NOT_ALL_TRIED

    @property
    def is_whole(self) -> bool:
        """Whether all was tried that was chosen, of a shard its own states: nothing stopped the
        check, and no recovery had a fault. A state without an answer counts as tried. Options that
        are in not_done don't matter."""
        is_whole = not self.counts.untried_count and not self.head.stopped
        return is_whole and not any(recovery.fault for recovery in self.recoveries)


def add_version_hint(groups: List[Group]) -> None:
    """Sets has_version_hint of the first group with states that `ordered` allows, if their trace is
    of a version without `journal`, which allows fewer. Covered and accepted groups are skipped:
    they aren't shown, or are known."""
    for group in groups:
        counts = counts_by_profile(group)
        is_open = not group.is_covered and group.accepted_entry is None
        if is_open and counts.get(ORDERED) and JOURNAL not in counts:
            group.has_version_hint = True
            return


def packed_results(findings: Findings) -> bytes:
    """The results of a window as the JSON has them, packed by pack_text()."""
    return pack_text(as_json(findings.results.fields(), **COMPACT))


def state_rows(findings: Findings) -> List[StateRow]:
    """A row for each state of a window that has an outcome, which may be that of an equal state.
    States that the window before has too have no row."""
    outcomes, profile_names_of = findings.outcomes_by_state, findings.plan.profile_names_of
    return [
        StateRow(state, outcomes[state.number], profile_names_of(state))
        for state in findings.results.own_states
        if state.number in outcomes
    ]
