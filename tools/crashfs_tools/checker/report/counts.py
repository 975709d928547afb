"""What a check counts."""

from __future__ import annotations

from collections import Counter
from dataclasses import dataclass, field
from typing import Counter as Counts
from typing import Dict, Iterator, List, NamedTuple, Optional

from crashfs_tools.checker.findings.groups import Findings, Group, all_tried_states
from crashfs_tools.checker.running.results import Head
from crashfs_tools.checker.running.runner import BAD, Outcome
from crashfs_tools.checker.states.plan import AllStates

# There are more sets than so many if they can't be counted.
LEAST_OF_MANY = 1_000_000


class AcceptedStates(NamedTuple):
    """How many different failing states are of accepted failures, in total and by the kinds of
    their causes."""

    total: int
    cause_kinds: Counts[str]


@dataclass
class StateCounts:
    """What a check counts, over all windows. results and cause_kinds count different states, which
    are tried once; `states` and all_failing_states also count states that are equal to them.
    operations counts the session's micro-operations up to the end of the last window. is_part says
    that all crash states were asked for, but only some are tried in a window. seconds_per_state is
    0 if it isn't known. drawn_results counts the sets that were drawn at random, up to the first
    that wasn't tried, by their results. all_states has what the plan of each window knows of all
    its crash states, None if only families were asked for."""

    windows: int = 0
    operations: int = 0
    states: int = 0
    different_states: int = 0
    wanted_states: int = 0
    tried_states: int = 0
    all_failing_states: int = 0
    all_states: List[Optional[AllStates]] = field(default_factory=list)
    profile: str = ''
    is_part: bool = False
    seconds_per_state: float = 0.0
    drawn_results: Counts[str] = field(default_factory=Counter)
    results: Counts[str] = field(default_factory=Counter)
    cause_kinds: Counts[str] = field(default_factory=Counter)

    def add(self, findings: Findings) -> None:
        """Adds the states of a window; call it once for each window, in their order. States that
        the window before has too only count in drawn_results."""
        results, shard = findings.results, findings.head.shard
        outcomes = [
            results.outcomes[number]
            for number in results.own_numbers.values()
            if number in results.outcomes
        ]
        self.windows += 1
        self.all_states.append(findings.plan.all_states)
        self.profile = findings.plan.profiles.wanted
        self.operations = findings.plan.first_place + len(findings.plan.operations)
        self.states += len(results.own_states)
        self.different_states += len(results.own_numbers)
        self.wanted_states += len(shard.share_of(results.wanted_numbers))
        self.is_part = self.is_part or results.is_part
        self.seconds_per_state = results.seconds_per_state or self.seconds_per_state
        self.drawn_results.update(outcome.result for outcome in drawn_outcomes(findings))
        self.tried_states += len(outcomes)
        self.all_failing_states += sum(
            outcome.result == BAD
            for number, outcome in findings.outcomes_by_state.items()
            if number not in results.numbers_before
        )
        self.results.update(outcome.result for outcome in outcomes)
        self.cause_kinds.update(outcome.cause_kind for outcome in outcomes if outcome.result == BAD)

    @property
    def untried_count(self) -> int:
        """How many of the different states that were chosen for this shard, in the windows so far,
        have no outcome."""
        return self.wanted_states - self.tried_states

    @property
    def are_all_listed(self) -> bool:
        """Whether the plan of each window lists all crash states, tried or not; False without
        windows."""
        are_listed = [window is not None and window.are_listed for window in self.all_states]
        return bool(are_listed) and all(are_listed)

    @property
    def are_all_wanted(self) -> bool:
        """Whether all crash states were asked for, not only families; False without windows."""
        return self.is_part or self.are_all_listed

    @property
    def is_by_second_reading(self) -> bool:
        """Whether the second reading, not the program, found which crash states a window has."""
        return any(window is not None and window.are_from_reading for window in self.all_states)

    @property
    def set_count(self) -> Optional[int]:
        """How many sets the rules allow. None if they are too many to be counted, if only families
        were asked for, and for any other number of windows than one: counts of windows can't be
        added."""
        if len(self.all_states) != 1 or self.all_states[0] is None:
            return None
        return self.all_states[0].sets

    @property
    def tried_text(self) -> str:
        """A sentence on how many of the crash states were tried, or how many states of some
        families."""
        tried = f'{self.tried_states:,}'
        if self.are_all_wanted:
            return f'{tried} of {self.total_text} crash states were tried.'
        return f'{tried} different states of some families were tried, not all crash states.'

    @property
    def total_text(self) -> str:
        """How many crash states there are, as text; all must have been asked for. If not all are
        listed, the text has a bound instead: in several windows `more than` listing_limit; in one
        plan the number of sets or, if they can't be counted, `more than` LEAST_OF_MANY."""
        if self.are_all_listed:
            return f'{self.different_states:,}'
        if len(self.all_states) > 1:
            return f'more than {self.listing_limit:,}'
        return f'more than {LEAST_OF_MANY:,}' if self.set_count is None else f'{self.set_count:,}'

    @property
    def listing_limit(self) -> int:
        """The largest limit of all windows: a window's plan lists all its different crash states if
        these are at most so many. 0 if only families were asked for."""
        return max((window.most for window in self.all_states if window is not None), default=0)

    def has_tried_all(self, head: Head) -> bool:
        """Whether the whole check has tried all states that it chose. False for one of several
        shards, even if all its own states were tried, and if the session goes on after the last
        window."""
        return head.shard.parts == 1 and not self.untried_count and not head.has_rest


def drawn_outcomes(findings: Findings) -> Iterator[Outcome]:
    """Yields the outcomes of the sets of a window that were drawn at random, in the order of
    drawing, up to the first set that wasn't tried."""
    all_states = findings.plan.all_states
    for number in all_states.drawn if all_states else ():
        if number not in findings.outcomes_by_state:
            return
        yield findings.outcomes_by_state[number]


def counts_by_profile(group: Group) -> Dict[str, int]:
    """For each profile how many of a group's different states a crash may leave by its rules. Empty
    if the profiles aren't known, or if the window before tried all of these states: the sets of
    that window may leave them too, under other profiles."""
    if not group.tried_states:
        return {}
    return {name: len(states) for name, states in group.states_by_profile.items()}


def count_accepted_states(groups: List[Group]) -> AcceptedStates:
    """Counts the different states that are only in accepted groups. A state of several accepted
    groups counts once, for the first of them; states that the window before tried don't count."""
    counted = all_tried_states(group for group in groups if group.accepted_entry is None)
    cause_kinds: Counts[str] = Counter()
    for group in groups:
        if group.accepted_entry is not None:
            cause_kinds[group.outcome.cause_kind] += len(group.tried_states - counted)
            counted |= group.tried_states
    return AcceptedStates(sum(cause_kinds.values()), cause_kinds)
