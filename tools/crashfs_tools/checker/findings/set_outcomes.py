"""The outcomes of sets of micro-operations: of sets that were tried, and of sets that leave what a
tried state leaves, for which COMMAND isn't run."""

from __future__ import annotations

from dataclasses import dataclass, field
from typing import Dict, Optional, Tuple

from crashfs_tools.checker.running.runner import GOOD, Outcome
from crashfs_tools.checker.states.plan import Plan, PlannedTrace
from crashfs_tools.reading import parse_trace
from crashfs_tools.reading.trees import Digest, Trees

from .groups import Findings

# What a set leaves: a tree, as its digest, and how many lines are acknowledged.
TreeAndSays = Tuple[Digest, int]


@dataclass
class EqualSets:
    """The outcomes of a plan's tried sets by what these leave, for plans of which all crash states
    were asked for. If these are all listed and were all tried, `outcomes` has what each allowed set
    leaves. left_by_sets has what each set leaves for which this was asked before."""

    trees: Trees
    outcomes: Dict[TreeAndSays, Outcome] = field(default_factory=dict)
    left_by_sets: Dict[int, TreeAndSays] = field(default_factory=dict)

    def tree_and_says(self, kept_set: int) -> TreeAndSays:
        """What an allowed set leaves, computed once for each set, and kept."""
        if kept_set not in self.left_by_sets:
            self.left_by_sets[kept_set] = self.trees.digest_and_says(kept_set)
        return self.left_by_sets[kept_set]


def find_equal_sets(planned: PlannedTrace, findings: Findings) -> Optional[EqualSets]:
    """The EqualSets of a plan's trace, with the outcomes that its findings have now, if all crash
    states were asked for, else None. ReadingFault if the second reading refuses the trace, OSError
    if its file is gone."""
    plan, outcomes = findings.plan, findings.outcomes_by_state
    if plan.all_states is None:
        return None
    with open(planned.trace, 'rb') as file:
        equal_sets = EqualSets(Trees(parse_trace(file.read())))
    # All states of a trial leave the same, and have one outcome.
    numbers_by_trial = {state.trial: state.number for state in reversed(plan.states)}
    for number in numbers_by_trial.values():
        if number in outcomes:
            equal_sets.outcomes[equal_sets.tree_and_says(plan.kept[number])] = outcomes[number]
    return equal_sets


def outcomes_by_set(plan: Plan, outcomes_by_state: Dict[int, Outcome]) -> Dict[int, Outcome]:
    """A new map of outcomes by the sets of a plan, from outcomes by the numbers of its states."""
    return {plan.kept[number]: outcome for number, outcome in outcomes_by_state.items()}


def outcome_of_set(
    kept_set: int, outcomes: Dict[int, Outcome], equal_sets: Optional[EqualSets]
) -> Optional[Outcome]:
    """The outcome that `outcomes` has for a set or, if equal_sets is given, that of a tried state
    with the tree and the acknowledged lines that the set leaves. None if neither is known. The set
    must be allowed."""
    if kept_set in outcomes or equal_sets is None:
        return outcomes.get(kept_set)
    return equal_sets.outcomes.get(equal_sets.tree_and_says(kept_set))


def is_failing(kept_set: int, outcomes: Dict[int, Outcome]) -> bool:
    """Whether a set was tried, and COMMAND failed or gave no answer, by the outcomes of sets."""
    outcome = outcomes.get(kept_set)
    return outcome is not None and outcome.result != GOOD


def count_failing_states(plan: Plan, outcomes: Dict[int, Outcome]) -> int:
    """How many different states of a plan fail or gave no answer, by the outcomes of sets. States
    whose set has no outcome don't count."""
    return len(
        {state.trial for state in plan.states if is_failing(plan.kept[state.number], outcomes)}
    )
