"""The smallest loss that makes a state fail which lacks several operations.

What the state lacks is put back, line by line, as long as it still fails alike. Then the state is
made shorter, as long as it still fails alike. Its last operation is the one that was kept, and the
first operation of the smallest loss is the one that was lost. A line without an effect in the state
is neither: the state fails with it and without it.
"""

from __future__ import annotations

from functools import reduce
from operator import or_
from typing import Dict, Iterable, Iterator, List, Optional

from crashfs_tools.checker.running.runner import Outcome
from crashfs_tools.checker.running.trials import Trials
from crashfs_tools.checker.states.place_sets import (
    first_missing,
    missing_set,
    places_of,
    prefix_set,
)
from crashfs_tools.checker.states.plan import Plan, State
from crashfs_tools.checker.states.planning import Planner

from .groups import Findings
from .pairs import Loss, Pair
from .set_outcomes import EqualSets, find_equal_sets, outcome_of_set, outcomes_by_set

# So many states are searched in each window, and COMMAND runs so often for each at most. If all
# crash states were tried, it isn't run.
SEARCHED, RUNS = 20, 12
SEARCHED_OF_ALL = 1_000


def sets_by_line(plan: Plan, micro_operations: int) -> List[int]:
    """Divides a set of micro-operations by the lines of the trace: a set for each line that has
    some of them, in the order of the lines."""
    sets: Dict[int, int] = {}
    for place in places_of(micro_operations):
        line = plan.operations[place].line
        sets[line] = sets.get(line, 0) | 1 << place
    return [sets[line] for line in sorted(sets)]


def find_losses(trials: Trials, planner: Planner, findings: Findings) -> None:
    """Finds the smallest losses of examples whose pair is a guess: of at most SEARCHED examples, or
    SEARCHED_OF_ALL if all crash states are listed. Adds them to the findings, which make their
    groups again; after an exception those that were added stay. The planner makes plans of the sets
    to try. Exceptions as in find_equal_sets(), Planner.plan_sets() and Trials.try_states()."""
    equal_sets = find_equal_sets(trials.planned, findings)
    left_count = SEARCHED_OF_ALL if findings.plan.has_all_states else SEARCHED
    while left_count > 0:
        # The groups that the losses make may have other examples.
        examples = [
            group.example
            for group in findings.groups
            if group.pair.is_guess and group.example.number not in findings.losses
        ][:left_count]
        if not examples:
            return
        left_count -= len(examples)
        losses = LossSearches(trials, planner, findings, equal_sets).run(examples)
        findings.add_losses(losses)


class LossSearch:
    """A search for the smallest loss of a failing state. kept_set is the set with the smallest loss
    that is known to fail alike. wanted_set is the set that the search wants tried next, None at its
    end; `sets` yields the ones after that."""

    def __init__(self, plan: Plan, kept_set: int) -> None:
        """kept_set is at first the set of the state, which must lack something."""
        self.plan = plan
        self.kept_set = kept_set
        self.sets = self.sets_to_try()
        self.wanted_set = next(self.sets, None)

    def answer(self, *, fails_alike: bool) -> None:
        """Continues the search, which must not have ended, by whether wanted_set fails alike."""
        if fails_alike and self.wanted_set is not None:
            self.kept_set = self.wanted_set
        self.wanted_set = next(self.sets, None)

    def sets_to_try(self) -> Iterator[int]:
        """Yields the sets that the search wants; between two of them kept_set becomes the first one
        if that fails alike. First puts back lines that the state lacks, half of them at a time,
        then smaller parts; then makes the state shorter."""
        part_count = 2
        while True:
            kept_set = self.kept_set
            line_sets = sets_by_line(self.plan, missing_set(kept_set))
            yield from self.larger_sets(unions_of_parts(line_sets, part_count))
            if self.kept_set != kept_set:
                part_count = max(2, part_count - 1)
            elif part_count < len(line_sets):
                part_count = min(2 * part_count, len(line_sets))
            else:
                break
        yield from self.shorter_sets()

    def larger_sets(self, parts: Iterable[int]) -> Iterator[int]:
        """A part of sets_to_try(): yields kept_set with one of some parts put back, and all that
        the part needs, if that has the same last place and still lacks something. Ends after the
        first that fails alike."""
        kept_set = self.kept_set
        for part in parts:
            larger_set = kept_set | with_needed(self.plan, part)
            if larger_set.bit_length() == kept_set.bit_length() and missing_set(larger_set):
                yield larger_set
                if self.kept_set == larger_set:
                    return

    def shorter_sets(self) -> Iterator[int]:
        """A part of sets_to_try(): yields beginnings of kept_set that still lack something, by
        binary search for the shortest one that fails alike."""
        kept_set, lost = self.kept_set, first_missing(self.kept_set)
        assert lost is not None
        ends = [place + 1 for place in places_of(kept_set) if place > lost]
        low, high = 0, len(ends) - 1
        while low < high:
            middle = (low + high) // 2
            shorter_set = kept_set & prefix_set(ends[middle])
            yield shorter_set
            if self.kept_set == shorter_set:
                high = middle
            else:
                low = middle + 1


class LossSearches:
    """Searches for the smallest losses of several states at once: in each turn one set is tried for
    each search. outcomes has the outcomes of the sets that were tried; equal_sets, if it is given,
    has those of sets that leave the same."""

    def __init__(
        self,
        trials: Trials,
        planner: Planner,
        findings: Findings,
        equal_sets: Optional[EqualSets] = None,
    ) -> None:
        """The outcomes that the findings have now are known."""
        self.trials = trials
        self.planner = planner
        self.findings = findings
        self.equal_sets = equal_sets
        self.outcomes = outcomes_by_set(findings.plan, findings.outcomes_by_state)

    def run(self, states: List[State]) -> Dict[int, Loss]:
        """The smallest losses of failing states, each of which must lack something, by their
        numbers. A search that isn't over after RUNS sets whose outcomes weren't known ends with the
        smallest loss so far. Exceptions as in try_sets()."""
        plan = self.findings.plan
        searches = {state.number: LossSearch(plan, plan.kept[state.number]) for state in states}
        self.answer_searches(searches)
        for _ in range(RUNS):
            wanted = [search.wanted_set for search in searches.values()]
            wanted_sets = [wanted_set for wanted_set in wanted if wanted_set is not None]
            if not wanted_sets:
                break
            self.try_sets(wanted_sets)
            self.answer_searches(searches)
        return {number: loss_of(search.kept_set) for number, search in searches.items()}

    def answer_searches(self, searches: Dict[int, LossSearch]) -> None:
        """Answers the searches for some states, by their numbers, as answer_search() does."""
        for number, search in searches.items():
            self.answer_search(search, self.findings.outcomes_by_state[number])

    def answer_search(self, search: LossSearch, failing: Outcome) -> None:
        """Answers the search for a state that has this outcome, with the outcomes of sets that are
        known, until it wants a set without one, or ends."""
        while search.wanted_set is not None:
            outcome = outcome_of_set(search.wanted_set, self.outcomes, self.equal_sets)
            if outcome is None:
                return
            is_same = self.findings.pairs.is_same_failure(failing, outcome)
            search.answer(fails_alike=is_same)

    def try_sets(self, sets: List[int]) -> None:
        """Tries sets that the order allows, and adds each outcome to `outcomes` as it comes; some
        are missing if an exception or --fail-fast ends the trial. Of a set that is a prefix too,
        the prefix is tried. Exceptions as in Planner.plan_sets() and Trials.try_states(). A later
        call replaces the file of the sets."""
        planned = self.planner.plan_sets(self.trials.planned, sets)
        kept_sets, states = planned.plan.kept, reversed(planned.plan.states)
        numbers = {kept_sets[state.number]: state.number for state in states}
        sets_by_number = {numbers[kept_set]: kept_set for kept_set in sets}

        def on_outcome(number: int, outcome: Outcome) -> None:
            self.outcomes[sets_by_number[number]] = outcome

        Trials(self.trials.workplace, planned).try_states([set(sets_by_number)], on_outcome)


def unions_of_parts(sets: List[int], part_count: int) -> Iterator[int]:
    """Divides a list of sets into so many parts of neighbours, or fewer if the sets are fewer, and
    yields the union of each part."""
    count = min(part_count, len(sets))
    for part in range(count):
        begin, end = part * len(sets) // count, (part + 1) * len(sets) // count
        yield reduce(or_, sets[begin:end])


def with_needed(plan: Plan, micro_operations: int) -> int:
    """A set of micro-operations with all that they need. The result is 0 for the empty set."""
    return reduce(or_, (plan.needs.masks[place] for place in places_of(micro_operations)), 0)


def loss_of(kept_set: int) -> Loss:
    """The loss of a set that isn't empty, with the pair of Pair.of_set()."""
    return Loss(Pair.of_set(kept_set), missing_set(kept_set))
