"""The plan of a trace: its micro-operations, its states, and what each state has."""

from __future__ import annotations

from dataclasses import dataclass
from typing import Dict, Iterable, Iterator, List, NamedTuple, Optional, Sequence, Tuple

from .place_sets import first_missing, missing_set, places_of, prefix_set, set_of, size_of


class PlanError(Exception):
    """Output of `crashfs list` or `crashfs picks` that this tool doesn't know."""


class PlannedMicroOperation(NamedTuple):
    """A micro-operation by its place in the session. path is that of its file or entry, empty if it
    has none; line is that of the session's trace."""

    place: int
    kind: str
    path: str
    details: str
    line: int

    @property
    def text(self) -> str:
        """The micro-operation as reports and pages show it."""
        words = [f'op {self.place}', self.kind, self.path, self.details]
        return ' '.join(word for word in words if word)


class Trial(NamedTuple):
    """What a command is run on: states with equal trees and the same acknowledged lines are one. By
    the number of the first state with the tree, and how many lines were acknowledged."""

    same: int
    says: int


class State(NamedTuple):
    """A crash state. family is `prefix`, `hole` or `pick`. numbers are places in its plan: a
    prefix's end; what a hole is missing, and its end; the members of a pick. says is how many lines
    were acknowledged, and same the first state with an equal tree."""

    number: int
    family: str
    numbers: Tuple[int, ...]
    says: int
    same: int

    @property
    def trial(self) -> Trial:
        """The trial of this state: one run is enough for all states of a trial."""
        return Trial(self.same, self.says)


class Offsets(NamedTuple):
    """How many states, micro-operations and acknowledged lines of a session come before a plan.
    lines has for each line of the plan's trace the number, from 1, of the session's line that it
    comes from; it is empty if they are the same."""

    states: int = 0
    operations: int = 0
    says: int = 0
    lines: Tuple[int, ...] = ()

    def line_in_trace(self, session_line: int) -> Optional[int]:
        """The number of the line of the plan's trace that comes from a line of the session, given
        by its number: of several the last one, None if there is none."""
        if not self.lines:
            return session_line
        numbers = (number for number, line in enumerate(self.lines, 1) if line == session_line)
        return max(numbers, default=None)


class CutOff(NamedTuple):
    """A line that was still pending at the end of the last window that has it: its loss was tried
    with only the first tried_count micro-operations after it."""

    line: int
    tried_count: int


class AllStates(NamedTuple):
    """What is known of all crash states of a trace. sets: how many sets its rules allow, None if
    they are too many to be counted. are_listed: whether the plan has each different state; it has
    them if these are at most `most`. are_from_reading: whether the second reading found the sets.
    families: so many of the plan's first states are those of families. drawn: the numbers of the
    states that were drawn at random, in their order."""

    sets: Optional[int]
    are_listed: bool
    are_from_reading: bool = False
    most: int = 0
    families: int = 0
    drawn: Tuple[int, ...] = ()


class Needs:
    """Which micro-operations each one needs, by any chain, itself among them: a set for each place.
    No micro-operation needs a later one. `full` is the set of all micro-operations."""

    def __init__(self, masks: Sequence[int]) -> None:
        """`masks` has for each place the set that its micro-operation needs; it must not change
        later."""
        self.masks = masks
        self.full = prefix_set(len(masks))
        self._sets_needing: Dict[int, int] = {}

    def is_needed(self, earlier: int, by: int) -> bool:
        """Whether the micro-operation at the place `by` needs an earlier one; False if `by` is past
        the last place."""
        return by < len(self.masks) and bool(self.masks[by] >> earlier & 1)

    def set_needing(self, place: int) -> int:
        """The set of the micro-operations that need the one at this place, with that one itself. It
        is computed once for each place."""
        if place not in self._sets_needing:
            later_places = range(place + 1, len(self.masks))
            self._sets_needing[place] = set_of(
                [place, *(later for later in later_places if self.is_needed(place, by=later))]
            )
        return self._sets_needing[place]

    def sets_without_lines(self, line_numbers: Iterable[int]) -> List[int]:
        """For each line of the trace that has micro-operations, in the order of the lines, the
        largest allowed set without any micro-operation of that line. line_numbers has for each
        micro-operation the number of its line, in the order of their places."""
        lost_sets: Dict[int, int] = {}
        for place, line_number in enumerate(line_numbers):
            lost_sets[line_number] = lost_sets.get(line_number, 0) | self.set_needing(place)
        return [self.full & ~lost_set for lost_set in lost_sets.values()]

    @property
    def hole_count(self) -> int:
        """How many holes a plan has: one for each micro-operation and each earlier one that it
        doesn't need."""
        return sum(place + 1 - size_of(mask) for place, mask in enumerate(self.masks))

    def is_prefix_or_hole(self, members: int) -> bool:
        """Whether an allowed set is that of a prefix or of a hole of the plan."""
        missing = first_missing(members)
        if missing is None:
            return True
        lost_set = self.set_needing(missing) & prefix_set(members.bit_length())
        return missing_set(members) == lost_set

    def is_allowed(self, members: int) -> bool:
        """Whether a set has all that its members need, so that a crash may leave it."""
        return all(self.masks[place] & ~members == 0 for place in places_of(members))


class SetProfiles(NamedTuple):
    """The names of the profiles that a trace has, and of each listed state, in the order of their
    numbers, those under whose rules its set is allowed: bits of a number. If one is wanted, only
    states that it allows are tried."""

    names: Tuple[str, ...] = ()
    of_sets: Tuple[int, ...] = ()
    wanted: str = ''


class Plan:
    """The micro-operations, the states of crashes, and what each state keeps. first is the number
    of the first listed state; the others follow it. kept has the set of each listed state, by its
    number. states are the listed ones that may be tried: a crash may leave them, also under the
    profile that is wanted. all_states is None if only families of states were asked for;
    has_all_states says whether each different crash state is listed. first_place is the session's
    place of the first micro-operation, 0 if there is none."""

    def __init__(
        self,
        operations: List[PlannedMicroOperation],
        listed: List[State],
        needs: Needs,
        first: int = 0,
        all_states: Optional[AllStates] = None,
        profiles: SetProfiles = SetProfiles(),
    ) -> None:
        """`profiles` has the profiles of all listed states, or of none: then profile_names_of()
        returns no names, and no profile may be wanted."""
        assert len(profiles.of_sets) in (0, len(listed))
        self.all_states = all_states
        self.has_all_states = all_states is not None and all_states.are_listed
        self.profiles = profiles
        self.operations = operations
        self.first_place = operations[0].place if operations else 0
        self.listed = listed
        self.needs = needs
        self.first = first
        self.say_places = set_of(
            place for place, operation in enumerate(operations) if operation.kind == 'say'
        )
        self.kept = {state.number: self.set_kept_by(state) for state in listed}
        self._profile_bits_by_trial = self.profile_bits_by_trial()
        self.states = [
            state
            for state in listed
            if self.can_crash_leave(self.kept[state.number])
            and profiles.wanted in ('', *self.profile_names_of(state))
        ]

    def profile_bits_by_trial(self) -> Dict[Trial, int]:
        """For each trial the profiles that allow at least one of the listed sets that leave its
        tree and lines, as bits. Empty if the profiles of the sets aren't known."""
        bits_by_trial: Dict[Trial, int] = {}
        for state, profile_bits in zip(self.listed, self.profiles.of_sets):
            bits_by_trial[state.trial] = bits_by_trial.get(state.trial, 0) | profile_bits
        return bits_by_trial

    def profile_names_of(self, state: State) -> List[str]:
        """The names of the profiles under which a crash may leave the tree and the acknowledged
        lines of a state, by the set of this or of an equal listed state. Empty if the profiles
        aren't known."""
        bits = self._profile_bits_by_trial.get(state.trial, 0)
        return [name for place, name in enumerate(self.profiles.names) if bits >> place & 1]

    def with_states(
        self, listed: List[State], all_states: Optional[AllStates], profiles: SetProfiles
    ) -> Plan:
        """A plan with the same micro-operations and first number as this one, but with these listed
        states, their profiles in the same order, and this all_states."""
        return Plan(self.operations, listed, self.needs, self.first, all_states, profiles)

    @property
    def families(self) -> List[State]:
        """The listed states of families, which come first; all listed states if only families were
        asked for."""
        return self.listed[: self.all_states.families] if self.all_states else self.listed

    @property
    def first_and_last_prefix(self) -> Tuple[State, State]:
        """The shortest and the longest prefix that may be tried; one twice if there is no other.
        The plan must have prefixes."""
        prefixes = [state for state in self.states if state.family == 'prefix']
        return prefixes[0], prefixes[-1]

    def has_state(self, number: int) -> bool:
        """Whether a state of this number is listed."""
        return self.first <= number < self.first + len(self.listed)

    def state(self, number: int) -> State:
        """The listed state of a number; has_state() must hold."""
        return self.listed[number - self.first]

    def state_text(self, state: State) -> str:
        """A state in words, such as `hole 1 5`: its family, and its numbers as places in the
        session. A pick is shown without numbers, since it may have hundreds."""
        if state.family == 'pick':
            return 'a pick'
        numbers = ' '.join(str(self.first_place + place) for place in state.numbers)
        return f'{state.family} {numbers}'

    def set_kept_by(self, state: State) -> int:
        """The set of the places that a state has, computed from its family and numbers. `kept` has
        it already for each listed state."""
        if state.family == 'pick':
            return set_of(state.numbers)
        if state.family == 'prefix':
            return prefix_set(state.numbers[0])
        lost_place, end = state.numbers
        return prefix_set(end) & ~self.needs.set_needing(lost_place)

    def can_crash_leave(self, members: int) -> bool:
        """Whether no member of an allowed set comes after an acknowledged line that the set lacks:
        a program prints a line before it continues. In traces of version 3 or later this is true of
        each allowed set."""
        first_missing_line = next(places_of(self.say_places & ~members), None)
        return first_missing_line is None or members.bit_length() <= first_missing_line

    def set_lost_by(self, state: State) -> int:
        """The set of the places that a listed state lacks before the last place that it has."""
        return missing_set(self.kept[state.number])

    def last_operation_of(self, state: State) -> Optional[PlannedMicroOperation]:
        """The last micro-operation that a listed state has; None if it has none."""
        kept_set = self.kept[state.number]
        return self.operations[kept_set.bit_length() - 1] if kept_set else None


def equal_states_before(plan_before: Plan, plan: Plan) -> Dict[int, int]:
    """Which states of a window's plan the plan of the window before has too. Returns by a state's
    number that of the state there with an equal set, the first of several. A set of a window counts
    as having all that comes before the window; plan_before must not begin later."""
    shift = plan.first_place - plan_before.first_place
    earlier_set = prefix_set(shift)
    number_by_set: Dict[int, int] = {}
    for state in plan_before.states:
        number_by_set.setdefault(plan_before.kept[state.number], state.number)
    equal_states = {}
    for state in plan.states:
        number_before = number_by_set.get(plan.kept[state.number] << shift | earlier_set)
        if number_before is not None:
            equal_states[state.number] = number_before
    return equal_states


class PlanOptions(NamedTuple):
    """What names a plan for the program: the options for its trace and its families, and the path
    of its file of picks, which is empty if it has none. Without the picks the prefixes and holes
    have the same numbers, but the program needn't read that file."""

    without_picks: List[str]
    picks_path: str = ''

    @property
    def with_picks(self) -> List[str]:
        """All options: that for the picks, if there are any, comes last."""
        return [*self.without_picks, *(['--picks', self.picks_path] if self.picks_path else [])]


class Part(NamedTuple):
    """The states of a plan from the number `first` to before `end`. options name them for the
    program, in which the first of them has the number first_in_program."""

    options: PlanOptions
    first: int
    end: int
    first_in_program: int


class Request(NamedTuple):
    """States that one command of the program gives: options name them. A state's number in the plan
    is the program's number plus number_offset."""

    options: List[str]
    number_offset: int


@dataclass
class PlannedTrace:
    """A trace that the program takes: the options that name its plan, in one part or several, and
    the plan. Each part has the prefixes. offsets has what of the session comes before it, and
    is_last whether nothing comes after it."""

    trace: str
    parts: List[Part]
    plan: Plan
    offsets: Offsets = Offsets()
    is_last: bool = True

    def window_text(self) -> str:
        """The range of the window's micro-operations in the session, as the beginning of a line: it
        ends in a colon and a blank. An empty text if the window has the whole session."""
        first_place = self.offsets.operations
        if self.is_last and first_place == 0:
            return ''
        return (
            f'micro-operations {first_place:,} to {first_place + len(self.plan.operations) - 1:,}: '
        )

    def files(self) -> List[str]:
        """The paths of the files that the plan is made from: the trace, which is the user's own
        file unless the session is in windows, and the picks of the parts."""
        picks_paths = (part.options.picks_path for part in self.parts)
        return [self.trace, *filter(None, picks_paths)]

    def requests(self, numbers: Iterable[int]) -> Iterator[Request]:
        """Yields a request for each part that has some of the states of these numbers, in the order
        of the parts. Numbers that the plan doesn't have are ignored. If none of them is that of a
        pick, the request has no picks."""
        wanted = set(numbers)
        for part in self.parts:
            numbers_of_part = {number for number in wanted if part.first <= number < part.end}
            if numbers_of_part:
                has_picks = any(
                    self.plan.state(number).family == 'pick' for number in numbers_of_part
                )
                options = part.options.with_picks if has_picks else part.options.without_picks
                number_offset = part.first - part.first_in_program
                ranges = ranges_text(number - number_offset for number in numbers_of_part)
                yield Request([*options, '--states', ranges], number_offset)


def ranges_text(numbers: Iterable[int]) -> str:
    """Numbers, all different, as `tar --states` takes them: one by one and in ranges, ascending,
    such as `1,4-6`. An empty text for none."""
    ranges: List[List[int]] = []
    for number in sorted(numbers):
        if ranges and ranges[-1][1] == number - 1:
            ranges[-1][1] = number
        else:
            ranges.append([number, number])
    return ','.join(str(first) if first == last else f'{first}-{last}' for first, last in ranges)
