"""What is found about a window's failing states after they were tried: whether examples fail again,
how files differ, and what another order of lines or the advised syncs change."""

from __future__ import annotations

import time
from typing import List

from crashfs_tools.checker.running.trials import ATTEMPTS, Trials
from crashfs_tools.checker.running.runner import GOOD, Outcome
from crashfs_tools.checker.states.plan import State
from crashfs_tools.checker.states.planning import Planner

from .advice_trials import AdviceTrials
from .groups import Findings
from .set_outcomes import find_equal_sets
from .tree_diff import compared_states, find_differences

# So many entries have their example run again, alone: the largest. What passes then is no failure
# of the state, but of what several runs share.
ENTRIES = 20


def rerun_example(trials: Trials, example: State, next_numbers: List[int]) -> Outcome:
    """Tries a failing state again, until it is good or was tried ATTEMPTS times in all, since
    COMMAND may fail in some runs only; the cache may have the outcomes. Returns the last outcome:
    if it is good, the failure isn't reproducible. next_numbers and exceptions as in
    Trials.try_state()."""
    for attempt in range(1, ATTEMPTS):
        outcome = trials.try_state(example, attempt, next_numbers)
        if outcome.result == GOOD:
            break
    return outcome


def rerun_examples(trials: Trials, findings: Findings, seconds: float = float('inf')) -> None:
    """Runs the examples of the first ENTRIES groups again, one at a time, except those that were
    run again before; begins none after so many seconds. The results get each outcome, and the group
    its rerun_seconds, at once; the groups get the outcomes and their advice at the end: not after
    an exception, as of Trials.try_state(). If an example is good now, the states of its group are
    dropped from the cache."""
    deadline = time.monotonic() + seconds
    results, groups = findings.results, findings.groups[:ENTRIES]
    # One run of the program gives the trees of all examples, and those that they are compared with.
    next_numbers = [group.example.number for group in groups]
    next_numbers += [good_state.number for _, good_state in compared_states(findings)]
    for group in groups:
        number = results.tried_numbers[group.example.trial]
        if number not in results.reruns and time.monotonic() < deadline:
            begin = time.monotonic()
            results.reruns[number] = rerun_example(trials, group.example, next_numbers)
            group.rerun_seconds = time.monotonic() - begin
            if results.reruns[number].result == GOOD:
                trials.drop_from_cache(state.number for state in group.states)
    findings.take_reruns(findings.groups)


def add_details(trials: Trials, planner: Planner, findings: Findings) -> None:
    """Adds to the findings how files differ, the results of another order of lines, and those of
    the advised syncs. The planner makes the plans of copies of the trace. What was added before an
    exception stays. Exceptions as in find_differences(), add_swaps(), find_equal_sets() and
    AdviceTrials.run()."""
    find_differences(trials, findings)
    swappable = [group for group in findings.groups if group.is_swappable]
    if swappable:
        from .swaps import add_swaps

        add_swaps(trials, planner, findings, swappable)
    equal_sets = find_equal_sets(trials.planned, findings)
    AdviceTrials(trials, planner, findings, equal_sets).run()
