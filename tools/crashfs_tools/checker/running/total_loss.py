"""A COMMAND that looks for nothing passes in every state. So it is also tried where all that the
session acknowledged is lost: if it passes there too, the report asks why."""

from __future__ import annotations

from .runner import GOOD
from .trials import Trials


def total_loss_question(trials: Trials) -> str:
    """A question if COMMAND, or the function in its place, passes in the start tree with all
    acknowledged lines of the session; an empty text if it doesn't, or if there are no such lines.
    The trials must be of the session's first plan. Exceptions as in Trials.try_state()."""
    line_count = len(trials.acknowledged_lines.texts)
    if not line_count or not passes_in_start_tree(trials, line_count):
        return ''
    has_start_files = bool(trials.trees.of_state(trials.plan.first))
    hint = ', or was all there before' if has_start_files else ' for what was acknowledged'
    name = trials.options.recovery_name
    return f'{name} passes even if the whole session is lost: does it look{hint}?'


def passes_in_start_tree(trials: Trials, line_count: int) -> bool:
    """Whether COMMAND passes in the start tree with the first line_count acknowledged lines, even
    if no crash leaves that. The plan of the trials must begin with the start tree. Exceptions as in
    Trials.try_state()."""
    start = trials.plan.listed[0]._replace(says=line_count)
    return trials.with_states([start]).try_state(start).result == GOOD
