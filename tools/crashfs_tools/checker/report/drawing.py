"""A window's states as the page draws them."""

from __future__ import annotations

from typing import Any, Dict, List

from crashfs_tools.checker.findings.groups import Findings
from crashfs_tools.checker.running.runner import BAD, GOOD, NO_ANSWER
from crashfs_tools.checker.states.plan import State
from crashfs_tools.checker.states.place_sets import size_of

# The results of states as the page draws them; '-' is a state that wasn't tried.
SIGNS = {GOOD: 'g', BAD: 'b', NO_ANSWER: 'n'}

Drawing = Dict[str, Any]


def drawing_of(findings: Findings) -> Drawing:
    """What the page's script draws of a window. `first` is the number of the first prefix, and
    `prefixes` a row of signs, by the ends of the prefixes. `holes` has a row for each end of a
    hole, in which the sign at k is that of the hole that lacks k; `numbers` has the numbers of the
    states in each of these rows. A blank is in the place of a state that isn't among the plan's
    `states`. `picks` is what picks_of() returns; `operations` are texts of the
    micro-operations."""
    plan = findings.plan
    count = len(plan.operations)
    holes: List[List[str]] = [[' '] * max(0, end - 1) for end in range(count + 1)]
    numbers: List[List[int]] = [[] for _ in range(count + 1)]
    prefixes = [' '] * (count + 1)
    for state in plan.states:
        if state.family == 'prefix':
            prefixes[state.numbers[0]] = sign_of(findings, state)
        elif state.family == 'hole':
            lost_place, end = state.numbers
            holes[end][lost_place] = sign_of(findings, state)
            numbers[end].append(state.number)
    return {
        'first': plan.first,
        'prefixes': ''.join(prefixes),
        'holes': [''.join(row) for row in holes],
        'numbers': numbers,
        'picks': picks_of(findings),
        'operations': [
            f'{operation.text} (line {operation.line})' for operation in plan.operations
        ],
    }


def picks_of(findings: Findings) -> List[List[Any]]:
    """The picks of a window, sorted by how many micro-operations they lack: each with its number,
    its sign and that count. Of equal picks only the first is in the list, and none that is equal to
    a prefix or a hole."""
    plan = findings.plan
    shown_trials = {state.trial for state in plan.states if state.family != 'pick'}
    picks = []
    for state in plan.states:
        if state.trial not in shown_trials:
            shown_trials.add(state.trial)
            lost_count = size_of(plan.set_lost_by(state))
            picks.append((lost_count, state.number, sign_of(findings, state)))
    return [[number, sign, lost_count] for lost_count, number, sign in sorted(picks)]


def sign_of(findings: Findings, state: State) -> str:
    """The sign of a state's outcome, which may be of the window before; `-` if it has no
    outcome."""
    outcome = findings.outcomes_by_state.get(state.number)
    return SIGNS[outcome.result] if outcome else '-'
