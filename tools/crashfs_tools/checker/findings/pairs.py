"""The two operations that a failing state has in the wrong order: one kept, one lost.

The pairs are found from the outcomes of all states. They keep to these rules:

1. A prefix loses nothing. Its pair is the operation after which prefixes begin to fail, and the
   operation that repairs them.
2. A state with the tree and the acknowledged lines of a prefix that fails alike has the pair of
   that prefix: its failure doesn't need what it lacks.
3. If the prefix of a hole's length fails alike, the hole isn't the reason, and rule 1 gives the
   pair.
4. A hole lacks an operation and what needs it. If another hole of its length lacks only a part of
   that and fails alike, the last such one gives the pair.
5. Of the holes that lack the same operation, the shortest one that fails alike counts, if all
   between it and the state that were tried fail alike. Its last operation was kept, and the
   operation that it lacks was lost.
6. A pick has the pair of a hole of its length that fails alike and lacks only what the pick lacks.
   If there is none, its last operation and the first one that it lacks are a guess; the smallest
   loss that makes the state fail takes its place (losses.py).
7. Two states fail alike if they have the same cause except for numbers or, if no other state has
   this cause, if they have the same word before the colon.
"""

from __future__ import annotations

from collections import Counter
from enum import Enum
from typing import Dict, NamedTuple, Optional

from crashfs_tools.checker.running.runner import GOOD, Outcome
from crashfs_tools.checker.states.place_sets import first_missing, places_of
from crashfs_tools.checker.states.plan import Plan, State


class Pair(NamedTuple):
    """The places of two micro-operations: kept is None if nothing was kept, lost is None if nothing
    was lost. is_guess says that a smaller loss than the state's may make it fail."""

    kept: Optional[int]
    lost: Optional[int]
    is_guess: bool = False

    @staticmethod
    def of_set(kept_set: int) -> Pair:
        """The pair of a set: its last place was kept, and the first place that it lacks before that
        one was lost."""
        kept = kept_set.bit_length() - 1 if kept_set else None
        return Pair(kept, first_missing(kept_set))

    def may_explain(self, kept_set: int) -> bool:
        """Whether a set has the micro-operation that the pair kept, and lacks the one that it lost.
        False if the pair kept or lost none."""
        if self.kept is None or self.lost is None:
            return False
        return bool(kept_set >> self.kept & 1) and not kept_set >> self.lost & 1


class Loss(NamedTuple):
    """A smallest loss that makes a state fail: its pair, and the set of all that it lacks, which
    isn't empty and has what the pair lost."""

    pair: Pair
    lacking: int

    def may_explain(self, kept_set: int, lost_set: int) -> bool:
        """Whether a state that has kept_set, and lacks lost_set before its last operation, lacks
        all that this loss lacks, and has the operation that the pair kept."""
        return self.pair.may_explain(kept_set) and self.lacking & ~lost_set == 0


class Comparison(Enum):
    """How a state compares with the failing state whose pair is looked for."""

    FAILS_ALIKE = 'fails alike'
    OTHER = 'is good, or fails with another cause'
    NOT_TRIED = 'was not tried'


class Pairs:
    """Finds the pair of each failing state from the outcomes of all states, by their numbers.

    prefixes are the numbers of all prefixes by their lengths, and holes those of the holes by the
    place that they lack and their length; those that aren't tried, since no crash leaves them or
    only under another profile, are among them. equal_prefixes has the length of the shortest prefix
    of each trial. causes counts the states that aren't good by their whole causes, except for
    numbers."""

    def __init__(self, plan: Plan, outcomes: Dict[int, Outcome]) -> None:
        """`outcomes` has those of the states, by their numbers, and mustn't get others later, since
        their causes are counted now."""
        self.plan = plan
        self.outcomes = outcomes
        prefixes = [state for state in plan.listed if state.family == 'prefix']
        self.prefixes = {state.numbers[0]: state.number for state in prefixes}
        self.equal_prefixes = {state.trial: state.numbers[0] for state in reversed(prefixes)}
        self.holes = {
            state.numbers: state.number for state in plan.listed if state.family == 'hole'
        }
        failing = (outcome for outcome in outcomes.values() if outcome.result != GOOD)
        self.causes = Counter(outcome.cause_without_numbers for outcome in failing)

    def pair_of(self, state: State) -> Pair:
        """The pair of a state that was tried and isn't good: by rule 1 for a prefix, by rule 2 for
        a state equal to one that fails alike, else by rules 3 to 5 for a hole and by rule 6 for a
        pick. KeyError for a state without an outcome."""
        outcome = self.outcomes[state.number]
        if state.family == 'prefix':
            return self.prefix_pair(state.numbers[0], outcome)
        equal_length = self.equal_prefixes.get(state.trial)
        if equal_length is not None:
            if self.compare(outcome, self.prefixes[equal_length]) is Comparison.FAILS_ALIKE:
                return self.prefix_pair(equal_length, outcome)
        if state.family == 'hole':
            return self.hole_pair(state, outcome)
        return self.pick_pair(state, outcome)

    def compare(self, outcome: Outcome, number: Optional[int]) -> Comparison:
        """How a state, given by its number, compares with a failing state that has this outcome.
        NOT_TRIED also for None, the number of a state that the plan doesn't list."""
        other = None if number is None else self.outcomes.get(number)
        if other is None:
            return Comparison.NOT_TRIED
        is_same = self.is_same_failure(outcome, other)
        return Comparison.FAILS_ALIKE if is_same else Comparison.OTHER

    def is_same_failure(self, outcome: Outcome, other: Outcome) -> bool:
        """Whether a state with the outcome `other` fails as a state with `outcome` does, by rule 7.
        False if one of them is good, or only one gave an answer. The words before the colons are
        compared only if no other state has the whole cause of `outcome`."""
        if outcome.result == GOOD or other.result != outcome.result:
            return False
        cause = outcome.cause_without_numbers
        if self.causes[cause] > 1:
            return other.cause_without_numbers == cause
        return other.cause_kind == outcome.cause_kind

    def prefix_pair(self, length: int, outcome: Outcome) -> Pair:
        """The pair of the prefix of a length, by rule 1; it must fail as a state with this outcome
        does. A prefix that wasn't tried is taken to fail alike."""
        operation_count = len(self.plan.operations)
        shortest = self.last_failing_length(range(length, -1, -1), outcome)
        longest = self.last_failing_length(range(length, operation_count + 1), outcome)
        kept = shortest - 1 if shortest > 0 else None
        return Pair(kept, longest if longest < operation_count else None)

    def last_failing_length(self, lengths: range, outcome: Outcome) -> int:
        """The last of some lengths before the first one whose prefix was tried and doesn't fail as
        a state with this outcome does. The prefix of the first length must, and isn't compared."""
        last = lengths[0]
        for length in lengths[1:]:
            if self.compare(outcome, self.prefixes[length]) is Comparison.OTHER:
                break
            last = length
        return last

    def hole_pair(self, state: State, outcome: Outcome) -> Pair:
        """The pair of a hole that fails as a state with this outcome does, by rules 3 to 5."""
        missing_place, length = state.numbers
        if self.compare(outcome, self.prefixes[length]) is Comparison.FAILS_ALIKE:
            return self.prefix_pair(length, outcome)
        lost = self.last_lost_place(missing_place, length, outcome)
        return Pair(self.shortest_failing_hole(lost, length, outcome) - 1, lost)

    def shortest_failing_hole(self, lost: int, length: int, outcome: Outcome) -> int:
        """The length of the shortest hole that counts by rule 5, of those that lack the operation
        at the place `lost`; this length if no shorter one does. A shorter hole that wasn't tried,
        or that the plan doesn't list, is skipped."""
        shortest = length
        # The last operation of a hole is there, so it comes after the one that is lost.
        for shorter in range(length - 1, lost + 1, -1):
            comparison = self.compare(outcome, self.holes.get((lost, shorter)))
            if comparison is Comparison.OTHER:
                break
            if comparison is Comparison.FAILS_ALIKE:
                shortest = shorter
        return shortest

    def last_lost_place(self, missing_place: int, length: int, outcome: Outcome) -> int:
        """The place that the hole without missing_place, of this length, lost by rule 4: of the
        later places that need missing_place the last one whose own removal gives a hole of this
        length that fails alike; missing_place if there is none."""
        last_place = length - 1
        for later in range(last_place - 1, missing_place, -1):
            if self.plan.needs.is_needed(missing_place, by=later):
                hole = self.holes.get((later, length))
                if self.compare(outcome, hole) is Comparison.FAILS_ALIKE:
                    return later
        return missing_place

    def pick_pair(self, state: State, outcome: Outcome) -> Pair:
        """The pair of a pick that has this outcome, by rule 6. If no hole gives the pair, it is a
        guess, unless the pick lacks nothing."""
        kept_set, lacking = self.plan.kept[state.number], self.plan.set_lost_by(state)
        for place in places_of(lacking):
            hole = self.holes.get((place, kept_set.bit_length()))
            if hole is not None and self.compare(outcome, hole) is Comparison.FAILS_ALIKE:
                return self.hole_pair(self.plan.state(hole), outcome)
        return Pair.of_set(kept_set)._replace(is_guess=lacking > 0)
