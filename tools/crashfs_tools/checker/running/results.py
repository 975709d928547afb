"""What came of a check, window by window, and as JSON."""

from __future__ import annotations

from dataclasses import dataclass, field
from functools import cached_property
from typing import Any, Dict, FrozenSet, Iterable, List, Optional, Set, Tuple

from crashfs_tools.checker.options import Shard
from crashfs_tools.checker.states.plan import CutOff, Plan, Trial
from crashfs_tools.common.trace_lines import TraceLine

from .runner import NO_ANSWER, Outcome

FORMAT = 3


@dataclass
class Head:
    """What a report is of. `lines` are those of the trace's operations; `stopped` says what ended
    the check early, if anything did. cut_off has the lines whose loss was not tried to the
    session's end; has_rest says whether the session goes on after the last window that was begun.
    refused_version is that of a trace
    which only the second reading takes, or 0."""

    trace: str
    digest: str
    command: List[str]
    shard: Shard = Shard()
    unproved: bool = False
    lines: Dict[int, TraceLine] = field(default_factory=dict)
    stopped: str = ''
    cut_off: List[CutOff] = field(default_factory=list)
    has_rest: bool = False
    refused_version: int = 0

    def identity(self) -> Tuple[object, ...]:
        """What is equal for two reports of one check: the trace's digest, COMMAND and the shard."""
        return self.digest, self.command, self.shard

    def fields(self) -> Dict[str, Any]:
        """What a file of --json has of the head, by its keys: parse_head() reads it."""
        return {
            'crashfs-check': FORMAT,
            'trace': self.trace,
            'sha256': self.digest,
            'command': self.command,
            'unproved': self.unproved,
            'refused_version': self.refused_version,
            'shard': [self.shard.part, self.shard.parts],
            'stopped': self.stopped,
            'has_rest': self.has_rest,
            'cut_off': [list(cut_off) for cut_off in self.cut_off],
            'lines': [list(line) for line in self.lines.values()],
        }


@dataclass
class Results:
    """A window's plan, and the outcomes by the numbers of the states that were tried. If the window
    before has a state too, numbers_before has its number there: it is tried there. reruns are
    outcomes of second runs. chosen_numbers are the states to try if all would take too long;
    seconds_per_state is how long each takes.

    Computed from these: own_states are those that the window before doesn't have. tried_numbers has
    for each trial the number of the state that is tried for it, here or in the window before;
    own_numbers has those of them that are tried here."""

    plan: Plan
    outcomes: Dict[int, Outcome] = field(default_factory=dict)
    numbers_before: Dict[int, int] = field(default_factory=dict)
    reruns: Dict[int, Outcome] = field(default_factory=dict)
    chosen_numbers: Optional[FrozenSet[int]] = None
    seconds_per_state: float = 0.0

    def __post_init__(self) -> None:
        """Computes, once, what is tried: plan and numbers_before must not change later. Of the
        states of a trial the first one is tried, unless the window before has one of them: then the
        first of those was tried there."""
        states, numbers_before = self.plan.states, self.numbers_before
        self.own_states = [state for state in states if state.number not in numbers_before]
        shared_states = [state for state in states if state.number in numbers_before]
        self.tried_numbers: Dict[Trial, int] = {}
        for state in (*shared_states, *self.own_states):
            self.tried_numbers.setdefault(state.trial, state.number)
        self.own_numbers = {
            trial: number
            for trial, number in self.tried_numbers.items()
            if number not in numbers_before
        }

    def outcomes_by_state(self, outcomes_before: Dict[int, Outcome]) -> Dict[int, Outcome]:
        """The outcomes of the plan's states by their numbers: each has that of its trial, which was
        tried here or in the window before. outcomes_before is what this method returned for the
        window before; empty for the first. States without an outcome yet are left out."""
        outcomes = {}
        for state in self.plan.states:
            number = self.tried_numbers[state.trial]
            number_before = self.numbers_before.get(number)
            if number_before is None:
                outcome = self.outcomes.get(number)
            else:
                outcome = outcomes_before.get(number_before)
            if outcome is not None:
                outcomes[state.number] = outcome
        return outcomes

    @cached_property
    def numbers_by_set(self) -> Dict[int, Set[int]]:
        """For each set of the plan's states the numbers of the states that are tried here for it.
        Sets whose states the window before tries are left out."""
        numbers_by_set: Dict[int, Set[int]] = {}
        for state in self.plan.states:
            number = self.own_numbers.get(state.trial)
            if number is not None:
                numbers_by_set.setdefault(self.plan.kept[state.number], set()).add(number)
        return numbers_by_set

    @property
    def is_part(self) -> bool:
        """Whether all crash states were asked for, but only some are tried."""
        has_all = self.plan.has_all_states and self.chosen_numbers is None
        return self.plan.all_states is not None and not has_all

    @property
    def wanted_numbers(self) -> List[int]:
        """The numbers of the states to try here, in the plan's order: one for each trial, or the
        chosen ones of these. The numbers are those of all shards; some may have outcomes
        already."""
        numbers, chosen = self.own_numbers.values(), self.chosen_numbers
        return [number for number in numbers if chosen is None or number in chosen]

    def choose(self, batches: Iterable[Set[int]]) -> None:
        """Chooses the states in some batches, by their numbers, and those that have an outcome
        already: no others are tried any more. An earlier choice is dropped."""
        self.chosen_numbers = frozenset(self.outcomes).union(*batches)

    def take_earlier_results(self, earlier: Results) -> None:
        """Takes the choice and seconds_per_state from the results of an earlier check, whose plan
        must be equal, and adds its outcomes, except those without an answer, which are tried again.
        Second runs aren't taken."""
        self.chosen_numbers = earlier.chosen_numbers
        self.seconds_per_state = earlier.seconds_per_state
        self.outcomes.update(
            {
                state: outcome
                for state, outcome in earlier.outcomes.items()
                if outcome.result != NO_ANSWER
            }
        )

    @property
    def is_whole(self) -> bool:
        """Whether each state to try has an outcome."""
        return all(number in self.outcomes for number in self.wanted_numbers)

    def identity(self) -> Tuple[object, ...]:
        """What is equal for two results of one window of a trace: its micro-operations, states and
        needs, and the profile whose states are tried."""
        plan = self.plan
        return plan.operations, plan.listed, plan.needs.masks, plan.profiles.wanted

    def fields(self) -> Dict[str, Any]:
        """The window's part of a file of --json, by its keys: parse_window() reads it. The seconds
        of a state are 0 unless only some of the crash states are tried: only then a report shows
        them."""
        return {
            'first': self.plan.first,
            'all_states': None if self.plan.all_states is None else list(self.plan.all_states),
            'profiles': list(self.plan.profiles),
            'chosen': None if self.chosen_numbers is None else sorted(self.chosen_numbers),
            'seconds': round(self.seconds_per_state, 4) if self.is_part else 0,
            'outcomes': outcome_fields(self.outcomes),
            'reruns': outcome_fields(self.reruns),
            'known': {str(number): before for number, before in self.numbers_before.items()},
            'needs': [f'{mask:x}' for mask in self.plan.needs.masks],
            'operations': [list(operation) for operation in self.plan.operations],
            'states': [list(state) for state in self.plan.listed],
        }


@dataclass
class AllResults:
    """The results of a check that is over, window by window. options_with_findings are those of
    `--nested` and `--disks` of which the check's report has findings; no window has them. not_done
    has a line for each of the two that was given and not done to the end."""

    head: Head
    windows: List[Results]
    options_with_findings: Tuple[str, ...] = ()
    not_done: Tuple[str, ...] = ()

    def add_outcomes(self, other: AllResults) -> None:
        """Adds to the windows the outcomes and second runs that another shard of the check has of
        them, in place. Further windows of the other shard are ignored."""
        for own_window, window in zip(self.windows, other.windows):
            own_window.outcomes.update(window.outcomes)
            own_window.reruns.update(window.reruns)


def outcome_fields(outcomes: Dict[int, Outcome]) -> Dict[str, List[str]]:
    """What a file of --json has of outcomes by the numbers of states, ascending."""
    return {str(number): list(outcome) for number, outcome in sorted(outcomes.items())}
