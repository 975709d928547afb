"""Failing states in groups: one for each cause and pair of lines of the trace."""

from __future__ import annotations

from dataclasses import dataclass, field, replace
from typing import Dict, FrozenSet, Iterable, List, NamedTuple, Optional, Set, Tuple

from crashfs_tools.checker.running.results import Head, Results
from crashfs_tools.checker.running.runner import GOOD, GOOD_OUTCOME, NO_ANSWER, Outcome
from crashfs_tools.checker.states.place_sets import places_of, size_of
from crashfs_tools.checker.states.plan import Plan, State
from crashfs_tools.common.entry import parent_of
from crashfs_tools.common.trace_lines import SYNCS, TraceLine

from .advice import (
    NOT_REPRODUCIBLE,
    Advice,
    AllSyncs,
    FailingCounts,
    if_no_acknowledgement,
    loss_advice,
    overwriting_text,
    no_loss_advice,
    swap_text,
    torn_advice,
)
from .accepted_failures import Acceptance, AcceptedFailure, operation_text
from .pairs import Loss, Pair, Pairs
from .sync_points import LinePairs, never_synced_directory
from .torn import kept_part_text


# A state that was tried, by its number; of a second crash the numbers of both crashes' states.
TriedState = Tuple[int, ...]


class Difference(NamedTuple):
    """How a group's example differs from the good state with a number: a line for each path."""

    good_state: int
    lines: List[str]


@dataclass
class Group:
    """Failing states whose causes agree except for numbers, and whose pairs are of lines of the
    same kind. The example is the state that lacks the least: outcome, pair, kept_line and lost_line
    are those of the example, and so is all below that says so."""

    outcome: Outcome
    example: State
    pair: Pair
    kept_line: Optional[TraceLine]
    lost_line: Optional[TraceLine]
    states: List[State] = field(default_factory=list)
    # The different states among them, by the numbers under which they were tried.
    tried_states: FrozenSet[TriedState] = frozenset()
    # All pairs of lines, the lost one first.
    line_pairs: List[Tuple[int, int]] = field(default_factory=list)
    # Of the example: the numbers of all lines of which it lacks something, of those that must be
    # lost for it to fail, and the syncs between its lines that don't make the lost one durable.
    lost_lines: List[int] = field(default_factory=list)
    needed_lines: List[int] = field(default_factory=list)
    other_syncs: List[TraceLine] = field(default_factory=list)
    advice: Advice = field(default_factory=Advice)
    difference: Optional[Difference] = None
    # Of the example: the outcome of its second run, and how long that took.
    rerun_outcome: Optional[Outcome] = None
    rerun_seconds: float = 0.0
    # Of the example: what a crash kept of a torn line, what another order of the two lines gives,
    # and whether the kept line overwrites bytes in use.
    kept_part: str = 'a part of it'
    swap_counts: Optional[FailingCounts] = None
    is_overwriting: bool = False
    # Whether the advice of larger groups removes all states.
    is_covered: bool = False
    # For each profile the tried states that a crash may leave by its rules.
    states_by_profile: Dict[str, FrozenSet[TriedState]] = field(default_factory=dict)
    # Whether the report says here how to learn which states `journal` allows.
    has_version_hint: bool = False
    # The entry of --accept that the group is, also if its last day has passed.
    acceptance: Optional[Acceptance] = None
    # The tried states that lack the lost operation of their pair and have the kept one.
    explained_states: FrozenSet[TriedState] = frozenset()

    @property
    def count(self) -> int:
        """How many different states the group has, without those that an earlier window had tried
        too; 1 if no others are left."""
        return max(1, len(self.tried_states))

    @property
    def accepted_entry(self) -> Optional[AcceptedFailure]:
        """The entry of --accept by which the group is accepted; None if it isn't, also if the last
        day of its entry has passed."""
        if self.acceptance is None or self.acceptance.has_expired:
            return None
        return self.acceptance.entry

    @property
    def as_accepted(self) -> AcceptedFailure:
        """The group as an entry of a file of accepted failures, with an empty reason."""
        lost, kept = operation_text(self.lost_line), operation_text(self.kept_line)
        return AcceptedFailure(self.outcome.cause, lost, kept, '')

    @property
    def is_reproducible(self) -> bool:
        """Whether the example had no second run, or failed again in it, or gave no answer."""
        return self.rerun_outcome is None or self.rerun_outcome.result != GOOD

    @property
    def is_torn(self) -> bool:
        """Whether a crash kept only a part of a line, so that both lines of the pair are this one.
        No sync can come between its parts."""
        return self.kept_line is not None and self.kept_line == self.lost_line

    @property
    def is_due_to_loss(self) -> bool:
        """Whether the failure needs a loss: that of the lost line, or of a part of a torn line. If
        it needs none, prefixes fail too: those from the kept line on, or from the beginning if
        there is no such line, to before the lost line, or to the end."""
        if self.is_torn:
            return True
        kept, lost = self.pair.kept, self.pair.lost
        return kept is not None and lost is not None and lost < kept

    @property
    def is_swappable(self) -> bool:
        """Whether another order of the two lines may be tried: the failure is reproducible and
        needs no loss, and both lines are there, of which the later one acknowledges nothing."""
        if self.kept_line is None or self.lost_line is None or self.lost_line.word == 'say':
            return False
        return self.is_reproducible and not self.is_due_to_loss

    @property
    def key(self) -> Tuple[object, ...]:
        """A key that is equal for groups that are one entry of a report. It has the cause without
        numbers and the result; if the example is reproducible, also whether a line is torn, whether
        the failure needs a loss, and the statements of the two lines."""
        cause_and_result = self.outcome.cause_without_numbers, self.outcome.result
        if not self.is_reproducible:
            return cause_and_result
        lines = (self.kept_line, self.lost_line)
        statements = [line.statement if line else '' for line in lines]
        return (*cause_and_result, self.is_torn, self.is_due_to_loss, *statements)

    def add_group(self, other: Group) -> None:
        """Adds the states and pairs of lines of another group with the same key and the same
        profiles, which isn't changed. The example stays, with all that is of the example. The
        result of the advice becomes the sum of both results, None if one is None. The group is then
        covered only if both groups were."""
        self.states.extend(other.states)
        self.tried_states |= other.tried_states
        self.explained_states |= other.explained_states
        self.states_by_profile = {
            name: self.states_by_profile.get(name, frozenset()) | states
            for name, states in other.states_by_profile.items()
        }
        self.line_pairs = sorted({*self.line_pairs, *other.line_pairs})
        self.is_covered = self.is_covered and other.is_covered
        own_result, other_result = self.advice.result, other.advice.result
        self.advice.result = own_result + other_result if own_result and other_result else None

    def set_advice(self, lines: Dict[int, TraceLine], more_pairs: LinePairs = ()) -> None:
        """Sets the advice by what is known of the group; `lines` has the trace's lines by number.
        If the advice is to sync a lost line, its syncs serve the group's pairs of lines and
        more_pairs, and a result of trying it stays; the result of any other advice is dropped."""
        if not self.is_reproducible:
            self.advice = Advice(list(NOT_REPRODUCIBLE))
        elif self.kept_line is not None and self.is_torn:
            self.advice = torn_advice(self.kept_line, self.kept_part)
        elif self.kept_line is None or self.lost_line is None or not self.is_due_to_loss:
            self.advice = self.best_no_loss_advice()
        else:
            pairs = [*self.line_pairs, *more_pairs]
            advice = loss_advice(self.kept_line, self.lost_line, pairs, lines)
            self.advice = replace(advice, result=self.advice.result)

    def best_no_loss_advice(self) -> Advice:
        """The advice for a failure that needs no loss. Its remedy is another order of the lines if
        fewer states fail then, else another place for the bytes if the kept line overwrites some in
        use, else that of no_loss_advice()."""
        kept, lost = self.kept_line, self.lost_line
        verb = 'gives no answer' if self.outcome.result == NO_ANSWER else 'fails'
        advice = no_loss_advice(kept, lost, verb)
        if kept is None or lost is None:
            return advice
        if self.swap_counts is not None and self.swap_counts.is_lower:
            remedy = f'{swap_text(kept, lost)} (tried: then {self.swap_counts.text})'
            if kept.word == 'say':
                remedy += f'. {if_no_acknowledgement(kept)}'
            return replace(advice, remedy=remedy)
        if self.is_overwriting:
            return replace(advice, remedy=overwriting_text(kept, lost))
        return advice


class Findings:
    """The findings of one window. outcomes_by_state has the outcomes by the numbers of states, also
    of those that the window before has too. Only the other states, the window's own, are counted
    and grouped. losses are the smallest losses that were found, by the numbers of states. all_syncs
    is None until the advice was tried."""

    def __init__(
        self,
        head: Head,
        results: Results,
        previous_outcomes: Dict[int, Outcome],
        ignored_outcome: Optional[Outcome] = None,
    ) -> None:
        """Makes the groups of the failing states, with advice and second runs. previous_outcomes
        are those of the window before, empty for the first. States that fail as ignored_outcome
        does, if it is given, are left out. Outcomes that the results get later aren't seen."""
        self.head = head
        self.ignored_outcome = ignored_outcome
        self.results = results
        self.plan: Plan = results.plan
        self.outcomes_by_state = results.outcomes_by_state(previous_outcomes)
        self.pairs = Pairs(self.plan, self.outcomes_by_state)
        self.losses: Dict[int, Loss] = {}
        self.all_syncs: Optional[AllSyncs] = None
        self.groups = self.make_groups()

    def make_groups(self) -> List[Group]:
        """The groups of the window's own states that fail or gave no answer, the largest first; the
        example of each lacks the least. What is found by trying more, such as differences, is
        missing; the second runs that the results have now are not."""
        failing = [state for state in self.results.own_states if self.is_failure(state)]
        failing.sort(key=lambda state: (size_of(self.plan.set_lost_by(state)), state.number))
        groups = merged_groups(map(self.group_of_state, failing))
        for group in groups:
            group.lost_lines = self.lost_lines(group.example)
            group.needed_lines = self.needed_lines(group)
            if group.kept_line is not None and group.is_torn:
                kept_set = self.plan.kept[group.example.number]
                line_number = group.kept_line.number
                group.kept_part = kept_part_text(self.plan, kept_set, line_number)
            group.other_syncs = self.other_syncs(group)
        self.take_reruns(groups)
        return groups

    def add_losses(self, losses: Dict[int, Loss]) -> None:
        """Adds the smallest losses of some states, by their numbers. Each other state of a group
        whose pair is a guess gets the first of these losses for which has_same_loss() is true. The
        groups are made again, without what was added to the old ones, such as differences."""
        self.losses.update(losses)
        guessed = [state for group in self.groups if group.pair.is_guess for state in group.states]
        for state in guessed:
            with_same_loss = (number for number in losses if self.has_same_loss(state, number))
            number = next(with_same_loss, None)
            if number is not None:
                self.losses.setdefault(state.number, losses[number])
        self.groups = self.make_groups()

    def has_same_loss(self, state: State, number: int) -> bool:
        """Whether a failing state also has the smallest loss of another state, whose number must be
        in `losses`: it lost all of that, has the operation that the pair kept, and fails as the
        other state does."""
        kept_set, lacking = self.plan.kept[state.number], self.plan.set_lost_by(state)
        outcomes = self.outcomes_by_state
        return self.losses[number].may_explain(kept_set, lacking) and self.pairs.is_same_failure(
            outcomes[number], outcomes[state.number]
        )

    def take_reruns(self, groups: List[Group]) -> None:
        """Sets in groups the outcome of the example's second run that the results have, None if
        they have none; and then the advice, which only says that the failure isn't reproducible if
        the example was good in that run."""
        for group in groups:
            number = self.results.tried_numbers[group.example.trial]
            group.rerun_outcome = self.results.reruns.get(number)
        set_all_advice(groups, self.head.lines)

    def is_failure(self, state: State) -> bool:
        """Whether a state fails or gave no answer. False for a state without an outcome, and for
        one whose cause is that of ignored_outcome, except for numbers."""
        outcome = self.outcomes_by_state.get(state.number, GOOD_OUTCOME)
        ignored = self.ignored_outcome
        is_ignored = (
            ignored is not None and outcome.cause_without_numbers == ignored.cause_without_numbers
        )
        return outcome.result != GOOD and not is_ignored

    def group_of_state(self, state: State) -> Group:
        """A group of this failing state only. What make_groups() sets in merged groups, such as
        their lost lines and their advice, is missing."""
        loss = self.losses.get(state.number)
        pair = loss.pair if loss else self.pairs.pair_of(state)
        kept, lost = self.line_at(pair.kept), self.line_at(pair.lost)
        no_states: FrozenSet[TriedState] = frozenset()
        # None if the window before tried an equal state.
        number = self.results.own_numbers.get(state.trial)
        tried = no_states if number is None else frozenset([(number,)])
        is_explained = pair.may_explain(self.plan.kept[state.number])
        allowed = self.plan.profile_names_of(state)
        return Group(
            outcome=self.outcomes_by_state[state.number],
            example=state,
            pair=pair,
            kept_line=kept,
            lost_line=lost,
            states=[state],
            tried_states=tried,
            line_pairs=[(lost.number, kept.number)] if kept and lost else [],
            states_by_profile={
                name: tried if name in allowed else no_states for name in self.plan.profiles.names
            },
            explained_states=tried if is_explained else no_states,
        )

    def line_at(self, place: Optional[int]) -> Optional[TraceLine]:
        """The line of the micro-operation at a place; if the report lacks that line, a new one with
        the micro-operation's kind as its word. None if the place is None."""
        if place is None:
            return None
        operation = self.plan.operations[place]
        return self.head.lines.get(operation.line) or TraceLine(
            operation.line, operation.kind, operation.path
        )

    def lost_lines(self, state: State) -> List[int]:
        """The ascending numbers of the lines of which a state lacks something before its last
        micro-operation."""
        lacking = self.plan.set_lost_by(state)
        return sorted({self.plan.operations[place].line for place in places_of(lacking)})

    def needed_lines(self, group: Group) -> List[int]:
        """The ascending numbers of the lines that must be lost for a group's example to fail, in
        addition to the lost line. A line of which only such operations are lost as need the lost
        one is left out. Empty if no smallest loss of the example is known."""
        loss, lost_place = self.losses.get(group.example.number), group.pair.lost
        if loss is None or lost_place is None:
            return []
        other_places = [
            place
            for place in places_of(loss.lacking)
            if not self.plan.needs.is_needed(lost_place, by=place)
        ]
        lines = {self.plan.operations[place].line for place in other_places}
        return sorted(lines - {self.plan.operations[lost_place].line})

    def other_syncs(self, group: Group) -> List[TraceLine]:
        """The syncs between a group's two lines that are of the lost line's file or of its
        directory, but don't make that line durable. Empty if the group is torn, or its failure
        needs no loss."""
        if group.kept_line is None or group.lost_line is None or not group.is_due_to_loss:
            return []
        own_paths = [path for path in (group.lost_line.path, group.lost_line.target) if path]
        paths = {*own_paths, *map(parent_of, own_paths)}
        numbers = range(group.lost_line.number, group.kept_line.number)
        lines = [self.head.lines[number] for number in numbers if number in self.head.lines]
        return [line for line in lines if line.word in SYNCS and line.path in paths]


def set_all_advice(groups: List[Group], lines: Dict[int, TraceLine]) -> None:
    """Sets the advice of all groups; `lines` has the trace's lines by number. If several groups are
    advised to sync the same directory, which the session never syncs, the syncs of the first of
    them serve the pairs of all."""
    groups_by_directory: Dict[str, List[Group]] = {}
    for group in groups:
        group.set_advice(lines)
        path = never_synced_directory(group.advice.syncs, lines)
        if path:
            groups_by_directory.setdefault(path, []).append(group)
    for first, *others in groups_by_directory.values():
        if others:
            first.set_advice(lines, [pair for group in others for pair in group.line_pairs])


def merged_groups(groups: Iterable[Group]) -> List[Group]:
    """Merges groups with the same key, by adding the others to the first of them, which changes.
    Returns the largest group first; of equally large ones that with the smaller example number."""
    groups_by_key: Dict[Tuple[object, ...], Group] = {}
    for group in groups:
        first = groups_by_key.setdefault(group.key, group)
        if first is not group:
            first.add_group(group)
    return sorted(groups_by_key.values(), key=lambda group: (-group.count, group.example.number))


def all_tried_states(groups: Iterable[Group]) -> Set[TriedState]:
    """The different states of some groups that were tried in their windows. States that are equal
    may be in several groups, but are one here."""
    return {state for group in groups for state in group.tried_states}
