"""What may repair a failure that needs no loss: another order of its two lines, tried on a copy of
the trace, or another place for the bytes that the kept line overwrites."""

from __future__ import annotations

import json
import os
from collections import Counter
from typing import Dict, Iterable, List, Optional, Tuple

from crashfs_tools.checker.running.results import Results
from crashfs_tools.checker.running.runner import Outcome
from crashfs_tools.checker.running.trials import Trials
from crashfs_tools.checker.states.place_sets import places_of
from crashfs_tools.checker.states.plan import Offsets, Plan, PlannedTrace
from crashfs_tools.checker.states.planning import Planner
from crashfs_tools.common.command import TEXT, Refused, write_text
from crashfs_tools.common.sparse import PAGE_BYTES, SparseBytes
from crashfs_tools.common.trace_lines import SYNCS, TraceLine

from .advice import FailingCounts
from .groups import Findings, Group
from .set_outcomes import count_failing_states, outcomes_by_set

# So many entries have the other order tried, of so many states at most.
ENTRIES, MOST_STATES = 3, 2_000


def add_swaps(trials: Trials, planner: Planner, findings: Findings, swappable: List[Group]) -> None:
    """Tries the other order of lines for the first ENTRIES of some swappable groups, finds out
    whether their kept line overwrites bytes in use, and sets their advice again. After an exception
    the groups before keep what was set. Exceptions as in Swap.run() and is_overwriting()."""
    for group in swappable[:ENTRIES]:
        group.swap_counts = Swap(trials, planner, findings, group).run()
        group.is_overwriting = is_overwriting(trials, findings, group)
        group.set_advice(findings.head.lines)


class Swap:
    """A copy of the trace in which the later line of a swappable group, with what it needs, comes
    before the earlier one."""

    def __init__(self, trials: Trials, planner: Planner, findings: Findings, group: Group) -> None:
        """The group must have both lines (is_swappable). Nothing is written yet."""
        self.trials = trials
        self.planner = planner
        self.findings = findings
        assert group.kept_line is not None and group.lost_line is not None
        self.kept_line, self.lost_line = group.kept_line, group.lost_line

    def run(self) -> Optional[FailingCounts]:
        """Writes the copy and tries its states; returns how many different states fail in the trace
        and in the copy. Those that --fail-fast left untried don't count. None, and nothing is
        tried, if the lines can't change places, or the copy has more than MOST_STATES states.
        Exceptions as in plan_copy() and Trials.try_states()."""
        moved_numbers = lines_to_move(self.kept_line, self.lost_line, self.findings.head.lines)
        planned = self.plan_copy(moved_numbers) if moved_numbers else None
        if planned is None or len(planned.plan.states) > MOST_STATES:
            return None
        session_plan = self.findings.plan
        session_outcomes = outcomes_by_set(session_plan, self.findings.outcomes_by_state)
        copy_outcomes = self.try_copy(planned, session_outcomes)
        return FailingCounts(
            count_failing_states(session_plan, session_outcomes),
            count_failing_states(planned.plan, copy_outcomes),
        )

    def plan_copy(self, moved_numbers: List[int]) -> Optional[PlannedTrace]:
        """Writes the copy, with the lines of lines_of_copy(), and plans it; a later copy replaces
        the file. None if there are no such lines, or if the program refuses this order. Exceptions
        as in Planner.plan(), without Refused; OSError also if a file can't be read or written."""
        lines = self.lines_of_copy(moved_numbers)
        if lines is None:
            return None
        path = os.path.join(self.trials.guard.directory, 'swap.trace')
        write_text(path, '\n'.join(line for _, line in lines))
        session_numbers = tuple(number for number, _ in lines)
        offsets = Offsets(says=self.trials.planned.offsets.says, lines=session_numbers)
        try:
            return self.planner.plan(path, offsets)
        except Refused:
            return None

    def lines_of_copy(self, moved_numbers: List[int]) -> Optional[List[Tuple[int, str]]]:
        """The lines of the copy, each after its number in the session. The lines of moved_numbers,
        which must ascend, come before the kept line, and after them an fsync of the lost line's
        path_to_fsync, with the number 0. None if the window lacks one of these lines, or has one of
        moved_numbers in parts. OSError as numbered_lines()."""
        lines = numbered_lines(self.trials.planned)
        numbers = [number for number, _ in lines]
        moved = [(number, line) for number, line in lines if number in moved_numbers]
        has_all = [number for number, _ in moved] == moved_numbers
        if not has_all or self.kept_line.number not in numbers:
            return None
        sync = {'op': 'fsync', 'path': self.lost_line.path_to_fsync}
        # Of a kept line in parts this is the first: all parts come after the sync.
        kept_place = numbers.index(self.kept_line.number)
        return [
            *lines[:kept_place],
            *moved,
            (0, json.dumps(sync, ensure_ascii=False)),
            *((number, line) for number, line in lines[kept_place:] if number not in moved_numbers),
        ]

    def try_copy(
        self, planned: PlannedTrace, session_outcomes: Dict[int, Outcome]
    ) -> Dict[int, Outcome]:
        """Tries the states of the planned copy, and returns the outcomes of its sets.
        session_outcomes has those of the session's sets: a set of the copy with the same
        micro-operations as one of these gets its outcome, and isn't tried. Sets that --fail-fast
        left untried have none. Exceptions as in Trials.try_states()."""
        plan = planned.plan
        session_places = matching_places(plan, self.findings.plan)
        results = Results(plan)
        for state in plan.states:
            session_set = set_at_places(plan.kept[state.number], session_places)
            if session_set is not None and session_set in session_outcomes:
                number = results.tried_numbers[state.trial]
                results.outcomes[number] = session_outcomes[session_set]

        def on_outcome(number: int, outcome: Outcome) -> None:
            results.outcomes[number] = outcome

        new_numbers = set(results.own_numbers.values()) - set(results.outcomes)
        Trials(self.trials.workplace, planned).try_states([new_numbers], on_outcome)
        return outcomes_by_set(plan, results.outcomes_by_state({}))


def numbered_lines(planned: PlannedTrace) -> List[Tuple[int, str]]:
    """The lines in the file of a planned trace, each after the number of the session's line that it
    comes from, or is a part of. OSError if the file can't be read."""
    with open(planned.trace, **TEXT) as file:
        lines = file.read().rstrip('\n').split('\n')
    return list(zip(planned.offsets.lines or range(1, len(lines) + 1), lines))


def lines_to_move(kept: TraceLine, lost: TraceLine, lines: Dict[int, TraceLine]) -> List[int]:
    """The ascending numbers of the lines that must be moved before the line `kept`: the later line
    `lost`, and those between the two for which must_move_with() is true. Empty if they can't be
    moved: a path of `kept` is, or is below or above, a path of a moved line that is no sync.
    `lines` has the trace's lines by number."""
    moved = [lost]
    for number in range(lost.number - 1, kept.number, -1):
        line = lines.get(number)
        if line is not None and must_move_with(moved, line):
            moved.insert(0, line)
    may_move = all(kept.is_apart_from(line) for line in moved if line.word not in SYNCS)
    return [line.number for line in moved] if may_move else []


def must_move_with(moved: Iterable[TraceLine], line: TraceLine) -> bool:
    """Whether a line must be moved together with some later moved lines, because a path of the line
    is, or is below or above, a path of a moved line that is no sync. A line that is a sync must be
    moved only with a line of its own file, and so never if it syncs everything."""
    if line.word in SYNCS:
        return bool(line.path) and any(line.path in (other.path, other.target) for other in moved)
    return not all(line.is_apart_from(other) for other in moved if other.word not in SYNCS)


def matching_places(plan: Plan, other: Plan) -> Dict[int, int]:
    """The places in `plan` of the micro-operations that `other` has too, each with its place in
    `other`. Micro-operations of one line and kind are matched in their order."""
    other_places = places_by_rank(other)
    places = places_by_rank(plan).items()
    return {place: other_places[key] for key, place in places if key in other_places}


def places_by_rank(plan: Plan) -> Dict[Tuple[int, str, int], int]:
    """The place of each micro-operation of a plan, by its line, its kind, and how many of the same
    line and kind come before it."""
    places: Dict[Tuple[int, str, int], int] = {}
    counts: Dict[Tuple[int, str], int] = Counter()
    for place, operation in enumerate(plan.operations):
        line_and_kind = operation.line, operation.kind
        places[(*line_and_kind, counts[line_and_kind])] = place
        counts[line_and_kind] += 1
    return places


def set_at_places(kept_set: int, places: Dict[int, int]) -> Optional[int]:
    """A set with each place replaced by the one that `places` has for it; None if `places` lacks
    one of the set's places."""
    replaced = 0
    for place in places_of(kept_set):
        if place not in places:
            return None
        replaced |= 1 << places[place]
    return replaced


def is_overwriting(trials: Trials, findings: Findings, group: Group) -> bool:
    """Whether the micro-operation that a group's pair kept is a write that replaces bytes of a
    file, other than zeros, by different ones. False if the pair kept none. The trees of the
    prefixes before and after it are compared, also if they weren't tried. Exceptions as in
    PlanTrees.of_states()."""
    plan, place = findings.plan, group.pair.kept
    if place is None or plan.operations[place].kind != 'write_block':
        return False
    path = plan.operations[place].path
    prefixes = findings.pairs.prefixes
    trees = trials.trees.of_states([prefixes[place], prefixes[place + 1]])
    before, after = (tree.get(path) for tree in trees)
    if before is None or after is None or before.data is None or after.data is None:
        return False
    return has_replaced_bytes(SparseBytes.copy_of(before.data), SparseBytes.copy_of(after.data))


def has_replaced_bytes(before: SparseBytes, after: SparseBytes) -> bool:
    """Whether a change replaced bytes of a file, other than zeros, by different ones: `before` has
    the file's bytes before the change, `after` those after it. Bytes past the new end don't
    count."""
    for number, old_page in before.data_pages():
        new_page = after.read(number * PAGE_BYTES, PAGE_BYTES)
        is_same = old_page == new_page
        if not is_same and any(old not in (0, new) for old, new in zip(old_page, new_page)):
            return True
    return False
