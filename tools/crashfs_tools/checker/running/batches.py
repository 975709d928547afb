"""The order in which states are tried if not all can be: those first that find most."""

from __future__ import annotations

from typing import Dict, Iterable, Iterator, List, Set

from crashfs_tools.checker.states.plan import Plan

from .results import Results


def states_in_batches(results: Results, *, has_all: bool) -> List[Set[int]]:
    """The numbers of the states that can be tried here, in batches to be tried one after the other:
    each number once, one for each trial that the window before doesn't try, and no batch empty.
    First come the families, then what was drawn at random and, if has_all is set, all other states.
    An earlier choice isn't looked at. The numbers are those of all shards; some may have outcomes
    already."""
    plan = results.plan
    sets_of_batches = [*family_batches(plan), sets_of_drawn_states(plan)]
    if has_all:
        sets_of_batches.append(list(plan.kept.values()))
    batches: List[Set[int]] = []
    earlier_numbers: Set[int] = set()
    for sets in sets_of_batches:
        batch = states_tried_for(results, sets) - earlier_numbers
        earlier_numbers |= batch
        if batch:
            batches.append(batch)
    return batches


def states_tried_for(results: Results, sets: Iterable[int]) -> Set[int]:
    """The numbers of the states that are tried for some sets; none for a set that the plan doesn't
    list, or that the window before tries."""
    numbers_by_set = results.numbers_by_set
    return {number for members in sets for number in numbers_by_set.get(members, ())}


def family_batches(plan: Plan) -> Iterator[List[int]]:
    """The sets of eight batches: prefixes that end at an acknowledged line, the start or the end;
    each micro-operation with all that it needs; for each operation the largest set without it;
    holes that end at an acknowledged line; picks; all prefixes; for some blocks of torn writes the
    largest set without the block; holes, the last one first, but none of a torn write's block. A
    set may come several times, or not be listed."""
    line_ends = {
        place + 1 for place, operation in enumerate(plan.operations) if operation.kind == 'say'
    }
    prefixes = {
        state.numbers[0]: plan.kept[state.number]
        for state in plan.listed
        if state.family == 'prefix'
    }
    yield [
        prefixes[end] for end in (0, *sorted(line_ends), len(plan.operations)) if end in prefixes
    ]
    yield list(plan.needs.masks)
    yield plan.needs.sets_without_lines(operation.line for operation in plan.operations)
    holes = [state for state in plan.listed if state.family == 'hole']
    torn_writes = torn_places(plan)
    whole_holes = [state for state in holes if state.numbers[0] not in torn_writes]
    yield [plan.kept[state.number] for state in whole_holes if state.numbers[1] in line_ends]
    yield [plan.kept[state.number] for state in plan.families if state.family == 'pick']
    yield list(prefixes.values())
    yield [plan.needs.full & ~plan.needs.set_needing(place) for place in sample_places(torn_writes)]
    yield [plan.kept[state.number] for state in reversed(whole_holes)]


def torn_places(plan: Plan) -> Dict[int, List[int]]:
    """For the place of each block of a torn write, the places of all blocks of that write,
    ascending. A write is torn if its line has several blocks."""
    places_by_line: Dict[int, List[int]] = {}
    for place, operation in enumerate(plan.operations):
        if operation.kind == 'write_block':
            places_by_line.setdefault(operation.line, []).append(place)
    return {
        place: places for places in places_by_line.values() if len(places) > 1 for place in places
    }


def sample_places(torn_writes: Dict[int, List[int]]) -> List[int]:
    """The places of the first, the middle and the last block of each torn write, each place once.
    torn_writes must be what torn_places() returns."""
    writes = {places[0]: places for places in torn_writes.values()}
    return [
        place
        for places in writes.values()
        for place in dict.fromkeys([places[0], places[len(places) // 2], places[-1]])
    ]


def sets_of_drawn_states(plan: Plan) -> List[int]:
    """The sets of the states that were drawn at random for a plan; none if it has no such
    states."""
    numbers = plan.all_states.drawn if plan.all_states is not None else ()
    return [plan.kept[number] for number in numbers]
