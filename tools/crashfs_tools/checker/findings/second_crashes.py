"""The findings of a second crash, during the recovery from the first."""

from __future__ import annotations

from dataclasses import dataclass, field, replace
from typing import Dict, Iterable, Iterator, List, NamedTuple, Tuple

from .groups import Group


@dataclass
class Recovery:
    """The recovery of a state, given by its number: how many different states of a second crash
    were tried, how many of them fail or gave no answer, and their groups. If the first state failed
    itself, states with its cause count as tried, not as failing. crash_places says where the second
    crash was, by the number of a group's example. fault says why the recovery wasn't tried, or is
    empty; unproved says whether the second reading computed the states."""

    state: int
    tried_count: int = 0
    failing_count: int = 0
    groups: List[Group] = field(default_factory=list)
    crash_places: Dict[int, str] = field(default_factory=dict)
    fault: str = ''
    unproved: bool = False


class SecondCrash(NamedTuple):
    """The number of the first crash's state, and where the second crash was, as text."""

    state: int
    place: str


def second_crash_entries(recoveries: Iterable[Recovery]) -> List[Tuple[Group, SecondCrash]]:
    """The entries of a report: copies of the groups of all recoveries, in their order, as
    copies_of_groups() makes them. Of groups with the same key only the first is an entry. It gets
    the states of the others, of which nothing else is reported."""
    entries: Dict[Tuple[object, ...], Tuple[Group, SecondCrash]] = {}
    for copy, second_crash in copies_of_groups(recoveries):
        first, _ = entries.setdefault(copy.key, (copy, second_crash))
        if first is not copy:
            first.states.extend(copy.states)
            first.tried_states |= copy.tried_states
    return list(entries.values())


def copies_of_groups(recoveries: Iterable[Recovery]) -> Iterator[Tuple[Group, SecondCrash]]:
    """A copy of each group of some recoveries, with the two crashes of its example. Each of the
    copy's tried_states begins with the number of the first crash's state. The copy has a list of
    states of its own, but shares the group's advice."""
    for recovery in recoveries:
        for group in recovery.groups:
            tried_states = frozenset((recovery.state, *tried) for tried in group.tried_states)
            copy = replace(group, states=list(group.states), tried_states=tried_states)
            yield copy, SecondCrash(recovery.state, recovery.crash_places[group.example.number])
