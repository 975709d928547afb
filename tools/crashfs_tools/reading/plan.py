"""The plan: the sets that are tried, and the families of further sets."""

from __future__ import annotations

from itertools import chain
from typing import Any, Container, Dict, Iterable, Iterator, List, NamedTuple, Sequence, Tuple

from .faults import LineFault, ReadingFault, syntax_fault
from .json_lines import is_trace_number, read_array
from .order import Order
from .place_sets import places_of, set_of
from .trees import Trees
from .trace import Reading

# The most states of a plan, and the largest number in a picks file.
STATES, LARGEST_PLACE = 16_384, 2**32 - 1
# The names of a state's numbers in `list --json`, by its kind; a pick has one name for all.
NUMBER_NAMES = {'prefix': ('end',), 'hole': ('missing', 'end')}


class PlannedState(NamedTuple):
    """A state of a plan: its kind, the numbers that name its set, and the set. A pick has the
    places of its set as numbers, any other kind those of NUMBER_NAMES."""

    kind: str
    numbers: Tuple[int, ...]
    place_set: int

    @property
    def fields(self) -> Dict[str, Any]:
        """The fields by which `list --json` names the set, the kind first."""
        if self.kind == 'pick':
            return {'kind': self.kind, 'places': list(self.numbers)}
        return {'kind': self.kind, **dict(zip(NUMBER_NAMES[self.kind], self.numbers))}

    @property
    def text(self) -> str:
        """The kind and the numbers as `list` prints them, such as `prefix 3`, `hole 1 3` or
        `pick 0,2`; `pick -` for the empty set."""
        separator = ',' if self.kind == 'pick' else ' '
        return f'{self.kind} {separator.join(map(str, self.numbers)) or "-"}'


class StatePlan:
    """A plan: the states that are tried, by their numbers, at most STATES; at first none. `order`
    is that of the trace's own profile, and `trees` makes the trees of sets."""

    def __init__(self, reading: Reading) -> None:
        self.reading = reading
        self.order = Order(reading)
        self.trees = Trees(reading)
        self.states: List[PlannedState] = []

    def add_state(self, kind: str, numbers: Tuple[int, ...], place_set: int) -> None:
        """Adds a state by its kind and numbers, see PlannedState, and its set, even if the plan has
        this set already. ReadingFault if the plan is full; the plan stays as it was."""
        if len(self.states) >= STATES:
            raise ReadingFault('plan too large')
        self.states.append(PlannedState(kind, numbers, place_set))

    def add_prefixes(self) -> None:
        """Adds each prefix, from the empty one to the whole trace. ReadingFault if the plan is
        full; the states added before stay."""
        for end in range(self.order.count + 1):
            self.add_state('prefix', (end,), (1 << end) - 1)

    def add_holes(self) -> None:
        """Adds, for each prefix and each of its micro-operations but the last, the prefix without
        this one and all that need it. If that lacks the prefix's last micro-operation too, it isn't
        added: it is a shorter prefix or a hole of one. ReadingFault if the plan is full; the states
        added before stay."""
        ends = range(self.order.count + 1)
        for missing, end in ((missing, end) for end in ends for missing in range(end - 1)):
            place_set = self.order.set_without((1 << end) - 1, 1 << missing)
            if place_set >> (end - 1):
                self.add_state('hole', (missing, end), place_set)

    def add_pick(self, places: Iterable[int]) -> None:
        """Adds the set of these places as a pick. Whether it is allowed isn't checked here.
        ReadingFault as add_state()."""
        members = tuple(places)
        self.add_state('pick', members, set_of(members))

    def refuse_bad_pick(self, number: int, pick: Sequence[int]) -> None:
        """ReadingFault, with the pick's number, unless its places are in ascending order, are all
        places of the trace, and are an allowed set."""
        is_ascending = all(place < next_place for place, next_place in zip(pick, pick[1:]))
        if not (
            is_ascending
            and all(place < self.order.count for place in pick)
            and self.order.is_allowed(set_of(pick))
        ):
            raise ReadingFault(f'pick {number} not allowed')


def make_plan(
    reading: Reading, *, has_holes: bool = False, picks: Sequence[Sequence[int]] = ()
) -> StatePlan:
    """A plan of the prefixes, the holes if has_holes is set, and the picks, in this order; a set
    may come several times. ReadingFault if there are too many states, or else as
    refuse_bad_pick()."""
    plan = StatePlan(reading)
    plan.add_prefixes()
    if has_holes:
        plan.add_holes()
    # This fault comes before that of any pick.
    if len(plan.states) + len(picks) > STATES:
        raise ReadingFault('plan too large')
    for number, pick in enumerate(picks):
        plan.refuse_bad_pick(number, pick)
        plan.add_pick(pick)
    return plan


def add_families(plan: StatePlan, options: Container[str]) -> None:
    """Adds the sets of the families that are among the options, see family_sets(), to a plan, as
    picks. Each set is added once, and only if the plan lacks it. ReadingFault if the plan is full;
    the sets added before stay."""
    families = family_sets(plan.order, plan.trees, options)
    planned_sets = {state.place_set for state in plan.states}
    for place_set in dict.fromkeys(chain.from_iterable(families)):
        if place_set not in planned_sets:
            plan.add_pick(places_of(place_set))


def read_picks(picks_bytes: bytes) -> List[List[int]]:
    """The places of each set of a picks file, given by its bytes. ReadingFault, with the line's
    number, for a line that read_pick() refuses. Empty lines are skipped, but counted. Whether the
    sets are allowed isn't checked here."""
    picks = []
    for number, line in enumerate(picks_bytes.split(b'\n'), 1):
        if line:
            try:
                picks.append(read_pick(line))
            except LineFault as fault:
                raise ReadingFault(f'picks line {number}: {fault.kind}') from fault
    return picks


def read_pick(line: bytes) -> List[int]:
    """The places of a set, from its line of a picks file. LineFault if the line isn't an array of
    numbers up to LARGEST_PLACE, in UTF-8. Which places the trace has isn't checked here."""
    places = read_array(line)
    if not all(is_trace_number(place) and place <= LARGEST_PLACE for place in places):
        raise syntax_fault(f'no array of numbers up to {LARGEST_PLACE}')
    return places


def family_sets(order: Order, trees: Trees, options: Container[str]) -> List[Iterator[int]]:
    """A stream of the sets of each family whose option is among the options: --lost first, then
    --files. `order` and `trees` must be those of one trace."""
    families = {'--lost': lost_sets(order), '--files': file_sets(order, trees)}
    return [sets for option, sets in families.items() if option in options]


def lost_sets(order: Order) -> Iterator[int]:
    """The family --lost: for each micro-operation the smallest set that has it and that the order
    allows, in the order of the trace."""
    return (needs | 1 << place for place, needs in enumerate(order.needs))


def file_sets(order: Order, trees: Trees) -> Iterator[int]:
    """The family --files: each prefix without those changes of one file that no sync before its
    last micro-operation covers, and without all that need them. A set may come several times.
    `order` and `trees` must be those of one trace."""
    changes = trees.change_places
    for end in range(1, order.count + 1):
        prefix = (1 << end) - 1
        # A sync after the prefix's last micro-operation hasn't ended yet.
        not_synced = prefix & ~order.synced_sets[end - 1]
        lost_of_files = (not_synced & changes[file_number] for file_number in sorted(changes))
        yield from (order.set_without(prefix, lost) for lost in lost_of_files if lost)
