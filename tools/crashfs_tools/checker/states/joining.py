"""Equal states of several parts of a plan: the program compares only those of one part."""

from __future__ import annotations

from typing import Dict, List

from .plan import Plan, State


def joined_states(trace_path: str, plan: Plan) -> List[State]:
    """Copies of the listed states of a plan, in which `same` is the first state of all parts that
    has an equal tree; in the plan it must be the first one of the state's part. The second reading
    of the trace at trace_path compares the trees: ReadingFault if it refuses the trace, OSError if
    the file can't be read."""
    from crashfs_tools.reading import parse_trace
    from crashfs_tools.reading.trees import Digest, Trees

    with open(trace_path, 'rb') as file:
        trees = Trees(parse_trace(file.read()))
    number_by_digest: Dict[Digest, int] = {}
    first_number: Dict[int, int] = {}
    for state in plan.listed:
        if state.same == state.number:
            digest = trees.digest(plan.kept[state.number])
            first_number[state.number] = number_by_digest.setdefault(digest, state.number)
    return [state._replace(same=first_number[state.same]) for state in plan.listed]
