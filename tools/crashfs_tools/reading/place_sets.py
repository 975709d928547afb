"""Sets of micro-operations as numbers: bit k is 1 if the one at place k of the trace is a
member."""

from __future__ import annotations

from functools import reduce
from operator import or_
from typing import Dict, Iterable, Iterator, Tuple, TypeVar

Key = TypeVar('Key')


def set_of(places: Iterable[int]) -> int:
    """The set that has these places, of which one may come twice; 0 if there are none."""
    return union_of(1 << place for place in places)


def union_of(place_sets: Iterable[int]) -> int:
    """The set of the places that at least one of these sets has; 0 if there are no sets."""
    return reduce(or_, place_sets, 0)


def sets_by_key(pairs: Iterable[Tuple[Key, int]]) -> Dict[Key, int]:
    """The set of each key, from pairs of a key and a place that its set has. The pairs may be in
    any order; a key without a pair has no set here."""
    place_sets: Dict[Key, int] = {}
    for key, place in pairs:
        place_sets[key] = place_sets.get(key, 0) | 1 << place
    return place_sets


def places_of(place_set: int) -> Iterator[int]:
    """The places of a set, ascending."""
    while place_set:
        lowest_bit = place_set & -place_set
        yield lowest_bit.bit_length() - 1
        place_set ^= lowest_bit
