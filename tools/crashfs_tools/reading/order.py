"""The order of micro-operations: which of them each one needs, under the rules of each profile. The
rules are P1 to P13 of docs/MODEL.md."""

from __future__ import annotations

from copy import copy
from itertools import accumulate
from operator import or_
from typing import Dict, Iterator, List, Tuple

from .faults import ReadingFault
from .lines import PROFILES, PROFILES_SINCE
from .micro import (
    Acknowledgement,
    ChangeSize,
    CreateEntry,
    LinkEntry,
    MicroOperation,
    RenameHalf,
    SetFileRights,
    WriteBlock,
)
from .names import DIRECTORY
from .place_sets import places_of, set_of, sets_by_key, union_of
from .syncs import SyncPoint
from .trace import Reading

# A thing that micro-operations change, make or require: its kind, and by what it is known, such as
# ('block', 3, 0) for the first block of file 3.
Mark = Tuple[object, ...]
# The profiles in which all changes of entries stay in order.
IN_ORDER = ('ordered', 'journal')


def changed_marks(operation: MicroOperation) -> Iterator[Mark]:
    """A mark for each thing that a micro-operation changes and whose changes all stay in order: a
    block, a size (P1), a file's rights (P7), an entry, and a directory that is made or removed or
    gets rights (P2). An acknowledged line has none."""
    if isinstance(operation, WriteBlock):
        yield 'block', operation.file_number, operation.block
    elif isinstance(operation, ChangeSize):
        yield 'size', operation.file_number
    elif isinstance(operation, SetFileRights):
        yield 'rights', operation.file_number
    yield from (('entry', entry) for entry in operation.entries)
    made_or_removed = operation.made_directory, operation.removed_directory
    for directory in (*made_or_removed, operation.directory_number):
        if directory is not None:
            yield 'directory', directory


def provided_marks(operation: MicroOperation) -> Iterator[Mark]:
    """The marks that a micro-operation provides: each later one that requires one of these marks
    needs it."""
    yield from changed_marks(operation)
    if isinstance(operation, Acknowledgement):
        yield ('say',)
    if operation.entries:
        yield ('entries',)
    yield from (('entry in', directory) for directory, _ in operation.entries)
    if isinstance(operation, CreateEntry):
        is_directory = operation.node.kind == DIRECTORY
        yield 'directory made' if is_directory else 'file made', operation.node.number
    if operation.is_directory_move:
        yield ('directory moved',)


def required_marks(operation: MicroOperation, version: int, profile: str) -> Iterator[Mark]:
    """The marks that a micro-operation requires under a profile, in a trace of this version: it
    needs all earlier ones that provide one of these marks. For the rules P5, P11 and P13 there are
    no marks."""
    yield from changed_marks(operation)
    yield from (('directory made', directory) for directory, _ in operation.entries)  # P3
    if operation.removed_directory is not None:
        yield 'entry in', operation.removed_directory  # P4
    if isinstance(operation, Acknowledgement) or version >= 3:
        yield ('say',)  # P6, P9
    if operation.entries and profile in IN_ORDER:
        yield ('entries',)  # P8
    if isinstance(operation, LinkEntry):
        yield 'file made', operation.node.number  # P10
    if operation.is_directory_move:
        yield ('directory moved',)  # P12


class Order:
    """Which sets of places a profile allows by its own rules, by default the trace's own profile.
    But the trace's own profile always decides whether a rename is two micro-operations. Whether the
    trace's version has the profile isn't checked: see order_under(). Sets are numbers, as in
    place_sets."""

    def __init__(self, reading: Reading, profile: str = '') -> None:
        """Computes what each place needs."""
        profile = profile or reading.profile
        self.operations = reading.operations
        self.count = len(reading.operations)
        # The set of all places.
        self.all_places = (1 << self.count) - 1
        # For each place, and for the end, what sync points before it cover, and what they wrote to
        # a log.
        self.synced_sets = compute_synced_sets(reading.operations, reading.syncs)
        self.logged_sets = compute_logged_sets(reading, profile)
        # For each place what it needs, by any chain, and what needs it.
        durable_sets = list(map(or_, self.synced_sets, self.logged_sets))
        self.needs = compute_needs(reading, profile, durable_sets)
        self.needed_by = inverse_sets(self.needs)
        # By their first places, the sets of both halves of a rename, which an allowed set has as a
        # whole or not at all. Only `blocks` allows a rename that is half done. The second half is
        # always at the next place.
        self.units = {
            place: 0b11 << place
            for place, operation in enumerate(reading.operations)
            if operation.rename_half is RenameHalf.FIRST and profile != 'blocks'
        }

    def pending_set(self, count: int) -> int:
        """Of the first `count` micro-operations the set of those that no sync point among or right
        after them has made durable. What a durable one needs is durable too."""
        durable = self.synced_sets[count] | self.logged_sets[count]
        durable |= union_of(self.needs[place] for place in places_of(durable))
        return (1 << count) - 1 & ~durable

    def future_without(self, future: int, lowest_bit: int) -> int:
        """What remains of a future (see the module `every`) if its lowest place, given by its bit,
        is left out for good, and with it all that need it."""
        return future & ~lowest_bit & ~self.needed_by[lowest_bit.bit_length() - 1]

    def unit_at(self, lowest_bit: int) -> int:
        """The set of the places that an allowed set gets together with the lowest place of its
        future, given by its bit: the unit of this place, or only the place."""
        return self.units.get(lowest_bit.bit_length() - 1, lowest_bit)

    def intersected_with(self, other: Order) -> Order:
        """The order that allows a set exactly if this one and another do. Both must be of the same
        micro-operations. A sync that makes something durable in one of them makes it durable in the
        new order."""
        new_order = copy(self)
        new_order.needs, new_order.units = [], {**self.units, **other.units}
        new_order.synced_sets = list(map(or_, self.synced_sets, other.synced_sets))
        new_order.logged_sets = list(map(or_, self.logged_sets, other.logged_sets))
        for place, needs in enumerate(map(or_, self.needs, other.needs)):
            if place in new_order.units:
                # A unit has two places, the halves of a rename: the first needs what both need.
                needs |= (self.needs[place + 1] | other.needs[place + 1]) & ~(1 << place)
            new_order.needs.append(
                needs | union_of(new_order.needs[needed] for needed in places_of(needs))
            )
        new_order.needed_by = inverse_sets(new_order.needs)
        return new_order

    def with_earlier_lines(self) -> Order:
        """The order that allows a set exactly if this one does and the set has all acknowledged
        lines that come before one of its members. From version 3 on it allows what this one does.
        """
        line_order = copy(self)
        earlier_lines, line_order.needs = 0, []
        for place, operation in enumerate(self.operations):
            line_order.needs.append(earlier_lines)
            if isinstance(operation, Acknowledgement):
                earlier_lines |= 1 << place
        return self.intersected_with(line_order)

    def is_allowed(self, place_set: int) -> bool:
        """Whether a set has all that its members need, and each unit as a whole or not at all. All
        its places must be those of the trace."""
        if any(place_set & unit not in (0, unit) for unit in self.units.values()):
            return False
        gaps = (1 << place_set.bit_length()) - 1 & ~place_set
        return not any(self.needed_by[gap] & place_set for gap in places_of(gaps))

    def set_without(self, place_set: int, lost: int) -> int:
        """A set without the places of the set `lost`, and without all that need one of these."""
        return place_set & ~(lost | union_of(self.needed_by[place] for place in places_of(lost)))


def compute_needs(reading: Reading, profile: str, durable_sets: List[int]) -> List[int]:
    """For each place the set of those that its micro-operation needs, by all rules of a profile and
    by any chain, without the place itself. durable_sets has for each place what sync points before
    it make durable under this profile."""
    needs: List[int] = []
    providers: Dict[Mark, int] = {}
    for place, operation in enumerate(reading.operations):
        required = required_marks(operation, reading.version, profile)
        direct_needs = union_of(providers.get(mark, 0) for mark in required)
        direct_needs |= durable_sets[place]  # P5, P11
        if operation.rename_half is RenameHalf.SECOND:
            direct_needs |= 1 << (place - 1)  # P13
        needs.append(direct_needs | union_of(needs[needed] for needed in places_of(direct_needs)))
        provided = provided_marks(operation)
        providers.update({mark: providers.get(mark, 0) | 1 << place for mark in provided})
    return needs


def inverse_sets(needs: List[int]) -> List[int]:
    """For each place the set of those that need it, from the set that each place needs."""
    needed_by = sets_by_key(
        (needed, place)
        for place, needed_set in enumerate(needs)
        for needed in places_of(needed_set)
    )
    return [needed_by.get(place, 0) for place in range(len(needs))]


def compute_synced_sets(operations: List[MicroOperation], syncs: List[SyncPoint]) -> List[int]:
    """For each place, and for the end, the set that the sync points before it cover."""
    synced_sets = [0] * (len(operations) + 1)
    for sync in syncs:
        earlier = enumerate(operations[: sync.place])
        synced_sets[sync.place] |= set_of(
            place for place, operation in earlier if sync.covers(operation)
        )
    return list(accumulate(synced_sets, or_))


def compute_logged_sets(reading: Reading, profile: str) -> List[int]:
    """For each place, and for the end, the set of what sync points before it wrote to the log. With
    the profile `journal` a sync point that is_fresh() writes all changes of entries before it; with
    other profiles there is no log, and all sets are empty."""
    entry_changes, logged_sets, begin = 0, [0] * (len(reading.operations) + 1), 0
    for sync in reading.syncs if profile == 'journal' else []:
        operations_since = reading.operations[begin : sync.place]
        numbered = enumerate(operations_since, begin)
        entry_changes |= set_of(place for place, operation in numbered if operation.entries)
        if sync.is_fresh(operations_since):
            logged_sets[sync.place] |= entry_changes
        begin = sync.place
    return list(accumulate(logged_sets, or_))


def profile_names(reading: Reading) -> List[str]:
    """The names of the profiles that a trace of this version may have, from the one that allows the
    most to the one that allows the least."""
    return [name for name in PROFILES if PROFILES_SINCE.get(name, 1) <= reading.version]


def order_under(reading: Reading, profile: str) -> Order:
    """The order that allows a set exactly if the trace's own order does and a file system of the
    profile may leave the set. ReadingFault if traces of this version can't have the profile."""
    if profile not in profile_names(reading):
        raise ReadingFault('no such profile')
    order = Order(reading)
    return order if profile == reading.profile else order.intersected_with(Order(reading, profile))
