"""What `list` prints."""

from __future__ import annotations

import json
from itertools import chain, repeat
from typing import Any, Dict, Iterator

from .micro import MicroOperation
from .order import Order, profile_names
from .place_sets import places_of
from .plan import StatePlan
from .trees import Digest


def plain_listing(
    plan: StatePlan, *, has_lines: bool = False, has_same: bool = False
) -> Iterator[str]:
    """The lines that `list` prints of a plan: one for each micro-operation, then one for each
    state. With has_lines a micro-operation has what --lines adds. With has_same a state has the
    number of the first state that has an equal tree, which may be its own."""
    for place, operation in enumerate(plan.reading.operations):
        yield f'op {place} {operation.text}{origin_text(operation) if has_lines else ""}\n'
    yield from plain_state_lines(plan, has_same=has_same)


def plain_state_lines(plan: StatePlan, *, has_same: bool) -> Iterator[str]:
    """The lines of plain_listing() for the states."""
    same_texts = map(' same {}'.format, first_equal_states(plan)) if has_same else repeat('')
    for number, (state, same_text) in enumerate(zip(plan.states, same_texts)):
        says = plan.trees.count_says(state.place_set)
        yield f'state {number} {state.text} says {says}{same_text}\n'


def origin_text(operation: MicroOperation) -> str:
    """What --lines adds to the line of a micro-operation: the number of the trace's line that it
    comes from, and the path of a file that it changes. Other micro-operations have no path here."""
    path_text = '' if operation.file_number is None else f' {operation.path}'
    return f' line {operation.line_number}{path_text}'


def first_equal_states(plan: StatePlan) -> Iterator[int]:
    """For each state of a plan the number of the first state that has an equal tree, which may be
    its own. How many lines are acknowledged doesn't count."""
    first_states: Dict[Digest, int] = {}
    for number, state in enumerate(plan.states):
        yield first_states.setdefault(plan.trees.digest(state.place_set), number)


def json_listing(plan: StatePlan) -> Iterator[str]:
    """The lines that `list --json` prints of a plan: one for each micro-operation, then one for
    each state."""
    return map(json_line, chain(operation_objects(plan), state_objects(plan)))


def operation_objects(plan: StatePlan) -> Iterator[Dict[str, Any]]:
    """The fields of each micro-operation in `list --json`. `needs` has the places of those that it
    needs, and its own."""
    for place, operation in enumerate(plan.reading.operations):
        yield {
            'op': place,
            'kind': operation.kind,
            **operation.fields,
            'line': operation.line_number,
            'needs': list(places_of(plan.order.needs[place] | 1 << place)),
        }


def state_objects(plan: StatePlan) -> Iterator[Dict[str, Any]]:
    """The fields of each state in `list --json`, with the first state that has an equal tree, and
    the profiles that allow its set, each by its own rules."""
    orders = {name: Order(plan.reading, name) for name in profile_names(plan.reading)}
    for number, (state, first_number) in enumerate(zip(plan.states, first_equal_states(plan))):
        yield {
            'state': number,
            **state.fields,
            'says': plan.trees.count_says(state.place_set),
            'same': first_number,
            'profiles': [name for name in orders if orders[name].is_allowed(state.place_set)],
        }


def json_line(fields: Dict[str, Any]) -> str:
    """Fields as a line of JSON, without blanks between them."""
    return json.dumps(fields, separators=(',', ':'), ensure_ascii=False) + '\n'
