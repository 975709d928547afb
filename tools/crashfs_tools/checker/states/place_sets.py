"""Sets of micro-operations as numbers: bit k is 1 if the one at place k of the plan is a member.

The second reading has such functions of its own: it shares no code with what it is compared with.
"""

from __future__ import annotations

from typing import Iterable, Iterator, Optional


def set_of(places: Iterable[int]) -> int:
    """The set that has these places; a place may come twice. ValueError if one is below 0."""
    members = 0
    for place in places:
        members |= 1 << place
    return members


def places_of(members: int) -> Iterator[int]:
    """The places of a set, ascending. The set must not be below 0."""
    while members:
        lowest = members & -members
        yield lowest.bit_length() - 1
        members ^= lowest


def size_of(members: int) -> int:
    """How many places a set has."""
    return bin(members).count('1')


def prefix_set(end: int) -> int:
    """The set of all places before `end`, which must not be below 0."""
    return (1 << end) - 1


def missing_set(members: int) -> int:
    """The set of the places that a set lacks before its last member."""
    return prefix_set(members.bit_length()) & ~members


def first_missing(members: int) -> Optional[int]:
    """The first place of a set's missing_set(); None if that is empty."""
    return next(places_of(missing_set(members)), None)
