"""All crash states: every allowed set of a trace, how many there are, and sets drawn from them.

The *future* of a set of places below k has the places from k on that can still be added: those that
need no place below k which the set lacks. Two sets with one future are extended by the same sets.
With its first place a whole unit of the order is added, also what is at k or later.
"""

from __future__ import annotations

import random
from typing import Dict, Iterator, List

from .faults import ReadingFault
from .order import Order

# The most futures for one k, if sets are counted, and the most sets that `picks` counts exactly.
MOST_FUTURES = 1_048_576
MOST_SETS = 2**64 - 1


def every_set(order: Order) -> Iterator[int]:
    """All sets that an order allows, as a stream. Of two sets the one that lacks the first place in
    which they differ comes first. There may be far too many: the caller must stop when it has
    enough."""
    waiting = [(0, order.all_places)]
    while waiting:
        place_set, future = waiting.pop()
        if not future:
            yield place_set
            continue
        lowest_bit = future & -future
        unit = order.unit_at(lowest_bit)
        waiting.append((place_set | unit, future & ~unit))
        waiting.append((place_set, order.future_without(future, lowest_bit)))


def set_counts_by_future(order: Order) -> List[Dict[int, int]]:
    """For each k, from 0 to the number of places, the futures of the allowed sets of places below
    k, each with how many sets have it. ReadingFault if there are more than MOST_FUTURES for one
    k."""
    levels = [{order.all_places: 1}]
    for place in range(order.count):
        levels.append(next_set_counts(order, levels[-1], 1 << place))
        if len(levels[-1]) > MOST_FUTURES:
            raise ReadingFault('too many sets to count')
    return levels


def next_set_counts(order: Order, set_counts: Dict[int, int], bit: int) -> Dict[int, int]:
    """The futures of the allowed sets of places below k + 1, each with how many sets have it.
    set_counts must have the same for the places below k, and `bit` must be that of place k."""
    pairs = (
        (next_future, set_count)
        for future, set_count in set_counts.items()
        for next_future in next_futures(order, future, bit)
    )
    next_counts: Dict[int, int] = {}
    for future, set_count in pairs:
        next_counts[future] = next_counts.get(future, 0) + set_count
    return next_counts


def next_futures(order: Order, future: int, bit: int) -> List[int]:
    """The futures that follow a future when the next place, given by its bit, is decided: that of
    the sets without the place, then that of the sets with the place. If the place can't be added,
    since the future lacks it, only the future itself."""
    if not future & bit:
        return [future]
    return [order.future_without(future, bit), future & ~order.unit_at(bit)]


def count_sets(order: Order) -> int:
    """How many sets an order allows, exactly, even if there are more than MOST_SETS. ReadingFault
    as set_counts_by_future()."""
    return sum(set_counts_by_future(order)[-1].values())


def drawn_sets(order: Order, count: int, seed: int) -> Iterator[int]:
    """`count` allowed sets, drawn with the same chance for every set each time, so that a set may
    come twice. The same seed draws the same sets. ReadingFault, only when the first set is asked
    for, if there are more than MOST_SETS sets, or more than MOST_FUTURES futures for one k."""
    extensions = count_extensions(order)
    set_count = extensions[0][order.all_places]
    if set_count > MOST_SETS:
        raise ReadingFault('too many sets to count')
    generator = random.Random(seed)
    for _ in range(count):
        yield nth_set(order, extensions, generator.randrange(set_count))


def count_extensions(order: Order) -> List[Dict[int, int]]:
    """For each k, from 0 to the number of places, and each future of set_counts_by_future() there,
    how many allowed sets extend one set of places below k that has this future. ReadingFault as
    set_counts_by_future()."""
    futures = set_counts_by_future(order)
    levels: List[Dict[int, int]] = [{0: 1}]
    for place in reversed(range(order.count)):
        next_level = levels[-1]
        level = {
            future: sum(next_level[after] for after in next_futures(order, future, 1 << place))
            for future in futures[place]
        }
        levels.append(level)
    levels.reverse()
    return levels


def nth_set(order: Order, extensions: List[Dict[int, int]], number: int) -> int:
    """The allowed set that comes after `number` others in the order of every_set(); there must be
    more than `number` sets. `extensions` must be what count_extensions() returns for this order."""
    place_set, future, sets_to_pass = 0, order.all_places, number
    for place in range(order.count):
        bit = 1 << place
        if not future & bit:
            continue
        future_without = order.future_without(future, bit)
        sets_without = extensions[place + 1][future_without]
        if sets_to_pass < sets_without:
            future = future_without
        else:
            sets_to_pass -= sets_without
            unit = order.unit_at(bit)
            place_set, future = place_set | unit, future & ~unit
    return place_set
