"""Tries advised syncs: they are put into a copy of the trace, and its new states are tried."""

from __future__ import annotations

import os
from typing import Dict, FrozenSet, List, NamedTuple, Optional, Set, Tuple

from crashfs_tools.checker.running.results import Results
from crashfs_tools.checker.running.runner import Outcome
from crashfs_tools.checker.running.trials import Trials
from crashfs_tools.checker.states.plan import Offsets, Plan, PlannedTrace, Trial
from crashfs_tools.checker.states.planning import Planner
from crashfs_tools.common.command import TEXT, write_text
from crashfs_tools.common.trace_lines import with_syncs

from .advice import AdviceResult, AllSyncs, FailingCounts
from .groups import Findings, Group
from .set_outcomes import (
    EqualSets,
    count_failing_states,
    is_failing,
    outcome_of_set,
    outcomes_by_set,
)

# So many of the largest entries get a copy, unless others cover them, and so many copies are tried.
MOST_COPIES, MOST_TRIED = 100, 5

# Syncs: each after the line of a number, with the path that is synced.
SyncPoints = FrozenSet[Tuple[int, str]]


class SyncedCopy(NamedTuple):
    """A copy of the trace with some syncs: its plan, and the keys of its states by
    AdviceTrials.state_key(), which are empty if not all crash states are listed."""

    planned: PlannedTrace
    state_keys: Set[object]


class AdviceTrials:
    """Tries the advice of the largest groups, then all advised syncs at once. The planner makes the
    plans of the copies. A copy has the same micro-operations as the trace, so that outcomes are
    known by their sets; a set that was tried before is not tried again.

    kept_sets has the sets of the trace's states, by their numbers. outcomes has the outcomes of
    sets of the trace and of the copies, and failing_before is how many different states of the
    trace fail. equal_sets finds the outcomes of equal states; it is None unless all crash states
    were asked for. listed_sets is the same if all are listed, else None."""

    def __init__(
        self,
        trials: Trials,
        planner: Planner,
        findings: Findings,
        equal_sets: Optional[EqualSets],
    ) -> None:
        """The outcomes that the findings have now are known. equal_sets is what find_equal_sets()
        returns for these findings."""
        self.trials = trials
        self.planner = planner
        self.findings = findings
        self.kept_sets = findings.plan.kept
        self.outcomes = outcomes_by_set(findings.plan, findings.outcomes_by_state)
        self.failing_before = count_failing_states(findings.plan, self.outcomes)
        self.equal_sets = equal_sets
        # Only of all crash states it is known what each allowed set leaves.
        self.listed_sets = self.equal_sets if findings.plan.has_all_states else None

    def run(self) -> None:
        """Makes a copy with the group's syncs for each of the first MOST_COPIES groups, and tries
        the first MOST_TRIED copies. A group that earlier copies cover, or that is advised no sync,
        gets no copy. Sets the results and is_covered of the groups, and all_syncs of the findings.
        After an exception, as of make_copy() or try_copy_states(), all_syncs isn't set."""
        copies: List[SyncedCopy] = []
        for group in self.findings.groups[:MOST_COPIES]:
            if not group.advice.syncs:
                continue
            group.is_covered = self.is_covered(group, copies)
            if not group.is_covered:
                copies.append(self.make_copy(frozenset(group.advice.syncs.items())))
                if len(copies) <= MOST_TRIED:
                    group.advice.result = self.try_copy(copies[-1], group)
        self.findings.all_syncs = self.try_all_syncs()

    def is_covered(self, group: Group, copies: List[SyncedCopy]) -> bool:
        """Whether for each state of a group there is a copy of which no crash leaves that state;
        different states may have different copies. False if there are no copies."""
        kept_sets = [self.kept_sets[state.number] for state in group.states]
        sets_by_key = {self.state_key(kept_set): kept_set for kept_set in kept_sets}
        return all(
            any(not self.may_leave(copy, kept_set) for copy in copies)
            for kept_set in sets_by_key.values()
        )

    def state_key(self, kept_set: int) -> object:
        """A key for what an allowed set leaves. If all crash states are listed, equal states have
        equal keys; else only equal sets have, since what an unlisted set leaves isn't known."""
        if self.listed_sets is None:
            return kept_set
        return self.listed_sets.tree_and_says(kept_set)

    def may_leave(self, copy: SyncedCopy, kept_set: int) -> bool:
        """Whether a crash of a copy may leave what a set of the trace leaves, by state_key(). If
        crash states may be missing in the list, whether the copy's rules allow the set itself."""
        if self.listed_sets is not None:
            return self.state_key(kept_set) in copy.state_keys
        return copy.planned.plan.needs.is_allowed(kept_set)

    def try_all_syncs(self) -> AllSyncs:
        """Tries all advised syncs at once, also those of groups that weren't tried, and returns
        them with how many states fail. Nothing is tried if there are no syncs, or if they are those
        of one group that was tried: its result is used. Exceptions as in make_copy() and
        try_copy_states()."""
        advised = [group for group in self.findings.groups if group.advice.syncs]
        points = frozenset(point for group in advised for point in group.advice.syncs.items())
        if not points:
            return AllSyncs(points, FailingCounts(self.failing_before, self.failing_before))
        if len(advised) == 1 and advised[0].advice.result is not None:
            return AllSyncs(points, advised[0].advice.result.failing_counts)
        planned = self.make_copy(points).planned
        self.try_copy_states(planned)
        failing_after = count_failing_states(planned.plan, self.outcomes)
        return AllSyncs(points, FailingCounts(self.failing_before, failing_after))

    def make_copy(self, points: SyncPoints) -> SyncedCopy:
        """Writes a copy of the trace that has these syncs, as write_copy() does, and plans it. If
        all crash states of the trace are listed, the second reading plans the copy; the program
        does if they aren't, if that plan has too many states, or if one of them isn't equal to a
        tried state of the trace. Refused if the copy is refused; other exceptions as in
        write_copy(), Planner.plan_different_states() and Planner.plan()."""
        copy_path = self.write_copy(points)
        if self.listed_sets is not None:
            # Syncs only take states away: if all of the trace were tried, those of the copy were.
            planned = self.planner.plan_different_states(copy_path, self.findings.plan)
            if planned is not None:
                copy = SyncedCopy(planned, self.listed_keys(planned.plan))
                if copy.state_keys <= self.listed_sets.outcomes.keys():
                    return copy
        planned = self.planner.plan(copy_path, Offsets(says=self.trials.planned.offsets.says))
        return SyncedCopy(planned, self.listed_keys(planned.plan))

    def listed_keys(self, plan: Plan) -> Set[object]:
        """The keys of the states of a copy's plan by state_key(); empty unless all crash states of
        the trace are listed."""
        if self.listed_sets is None:
            return set()
        return {self.state_key(plan.kept[state.number]) for state in plan.states}

    def write_copy(self, points: SyncPoints) -> str:
        """Writes a copy of the trace that has these syncs, and returns its path, which is the same
        for all copies: the earlier copy is replaced, and only its plan stays. Syncs after lines of
        other windows are left out. OSError if the trace is gone, or the copy can't be written."""
        planned = self.trials.planned
        with open(planned.trace, **TEXT) as file:
            text = file.read()
        numbered_points = ((planned.offsets.line_in_trace(line), path) for line, path in points)
        own_points = [(line, path) for line, path in numbered_points if line is not None]
        copy_path = os.path.join(self.trials.guard.directory, 'advice.trace')
        write_text(copy_path, with_syncs(text, own_points))
        return copy_path

    def try_copy(self, copy: SyncedCopy, group: Group) -> AdviceResult:
        """Tries the states of a copy, which must be the last one that was made, and returns what
        its syncs do for a group. States that --fail-fast left untried don't count as failing.
        Exceptions as in try_copy_states()."""
        plan = copy.planned.plan
        self.try_copy_states(copy.planned)
        trials_left = {
            state.trial
            for state in group.states
            if self.may_leave(copy, self.kept_sets[state.number])
        }
        other_failures, earlier_failures = self.count_other_failures(plan, group)
        return AdviceResult(
            len(trials_left),
            group.count,
            other_failures,
            earlier_failures,
            FailingCounts(self.failing_before, count_failing_states(plan, self.outcomes)),
        )

    def try_copy_states(self, planned: PlannedTrace) -> None:
        """Tries those states of a planned copy, the last one that was made, whose outcomes aren't
        known. Afterwards `outcomes` has those of the copy's sets, except of states that --fail-fast
        left untried. After an exception, as of Trials.try_states(), nothing is added."""
        plan = planned.plan
        by_trial = self.known_outcomes(plan)
        numbers = Results(plan).own_numbers.items()
        new_trials = {number: trial for trial, number in numbers if trial not in by_trial}

        def on_outcome(number: int, outcome: Outcome) -> None:
            by_trial[new_trials[number]] = outcome

        Trials(self.trials.workplace, planned).try_states([set(new_trials)], on_outcome)
        for state in plan.states:
            if state.trial in by_trial:
                self.outcomes.setdefault(plan.kept[state.number], by_trial[state.trial])

    def known_outcomes(self, plan: Plan) -> Dict[Trial, Outcome]:
        """The outcomes of those trials of a copy's plan that have a set whose outcome
        outcome_of_set() knows. If a trial has several such sets, the outcome of the last one
        counts."""
        outcomes: Dict[Trial, Outcome] = {}
        for state in plan.states:
            outcome = outcome_of_set(plan.kept[state.number], self.outcomes, self.equal_sets)
            if outcome is not None:
                outcomes[state.trial] = outcome
        return outcomes

    def count_other_failures(self, plan: Plan, group: Group) -> Tuple[int, int]:
        """How many different states of a copy's plan that aren't the group's fail or gave no
        answer, and how many of these are states of the trace too, which failed before."""
        group_keys = {self.state_key(self.kept_sets[state.number]) for state in group.states}
        tried_numbers = self.findings.outcomes_by_state.keys()
        trace_keys = {self.state_key(self.kept_sets[number]) for number in tried_numbers}
        is_earlier: Dict[Trial, bool] = {}
        for state in plan.states:
            kept_set, trial = plan.kept[state.number], state.trial
            if is_failing(kept_set, self.outcomes) and self.state_key(kept_set) not in group_keys:
                is_in_trace = self.state_key(kept_set) in trace_keys
                is_earlier[trial] = is_earlier.get(trial, False) or is_in_trace
        return len(is_earlier), sum(is_earlier.values())
