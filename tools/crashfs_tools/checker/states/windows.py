"""Sessions of any length: each window is a trace that the program takes.

A window ends before it passes the program's limits. If it has too many different crash states to
try them all, it ends earlier: at the last moment at which nothing is pending and few enough states
come before, but not in its first quarter. The next window begins at the first operation that is
still pending at the end, but no earlier than half a window on, with the tree that the program gives
of that moment. Everything before it counts as durable.
"""

from __future__ import annotations

import os
from dataclasses import dataclass
from typing import Iterator, List, Sequence

from crashfs_tools.checker.options import Options
from crashfs_tools.common import limits
from crashfs_tools.common.command import Refused, write_text

from .all_sets import ReadingSets
from .place_sets import places_of, size_of
from .plan import CutOff, Offsets, Plan, PlannedTrace
from .planning import Planner, TooLarge
from .steps import Session, Steps

# A trace with the probe has one micro-operation more.
LARGEST = limits.MICRO_OPERATIONS - 1
# If the sets of --files are too many, one of so many parts of a window is left out, at its end.
OMITTED_PART = 8
# A window that ends earlier, so that all its crash states can be tried, keeps more than one of so
# many parts.
LEAST_PART = 4


@dataclass
class PlannedWindow:
    """The plan of a window that ends before the step `end`. pending has the places in the plan that
    no sync has made durable at the end; acknowledged lines aren't among them. needs has the set
    that each micro-operation needs, also of those between `end` and the end of the first, longer
    try."""

    planned: PlannedTrace
    end: int
    pending: List[int]
    needs: Sequence[int]


class Windows:
    """The windows of one session, each of at most `largest` micro-operations, which is never more
    than LARGEST, or of one step that has more. cut_off grows while the windows are made."""

    def __init__(self, planner: Planner, session: Session, largest: int = LARGEST) -> None:
        """Nothing is planned yet. The files of windows will be in the directory of the guard."""
        self.planner = planner
        self.session = session
        self.largest = min(largest, LARGEST)
        self.cut_off: List[CutOff] = []

    def write_end(self) -> str:
        """Writes a trace that has only the tree at the session's end to the guard's directory, in
        place of an earlier one, and returns its path. OSError if it can't be written."""
        path = os.path.join(self.planner.guard.directory, 'end.trace')
        write_text(path, self.session.end_trace())
        return path

    def all_planned(self) -> Iterator[PlannedTrace]:
        """Yields the plan of each window, with is_last, which is True only for the last one. States
        are numbered on from window to window; micro-operations have their places in the session. A
        window's files are removed when the next plan is asked for; those of the last one stay.
        cut_off grows meanwhile: call this once. Errors as in Planner.plan() and
        move_steps(), and OSError if a trace can't be written."""
        steps, state_count = Steps(self.session), 0
        window = self.longest_window(steps, state_count)
        while window.end < len(self.session.steps):
            window.planned.is_last = False
            yield window.planned
            state_count += len(window.planned.plan.listed)
            previous, window = window, self.next_window(steps, window, state_count)
            remove_files(previous.planned)
        yield window.planned

    def next_window(
        self, steps: Steps, previous: PlannedWindow, first_number: int
    ) -> PlannedWindow:
        """The window after `previous`; its first state gets first_number. It begins at next_begin()
        or, if such a window wouldn't end later than `previous`, at the end of `previous`. Moves
        `steps` to where the window begins, and adds to cut_off what was pending at the end of
        `previous` and isn't in the new window. Errors as in move_steps() and longest_window()."""
        begin = self.next_begin(previous)
        self.move_steps(steps, previous, begin)
        window = self.longest_window(steps, first_number)
        if window.end <= previous.end:
            begin = previous.end
            self.move_steps(steps, previous, begin)
            window = self.longest_window(steps, first_number)
        self.note_cut_off(previous, self.session.places[begin])
        return window

    def longest_window(self, steps: Steps, first_number: int) -> PlannedWindow:
        """The longest window that begins where `steps` is and keeps to the limits in this module's
        text. Its first state gets first_number. Writes its trace and picks in place of those of
        longer tries. Refused for a trace with a fault, other errors as in Planner.plan(): the files
        stay then."""
        path = os.path.join(self.planner.guard.directory, f'window-{first_number}.trace')
        end = steps.end_within(self.largest)
        longest_needs: Sequence[int] = ()
        while True:
            text, lines = steps.trace_until(end)
            *needs, durable_set = self.needs_with_probe(path + '.probe', text)
            longest_needs = longest_needs or needs
            count = self.fitting_count(needs)
            if count < len(needs):
                end = steps.end_within(count)
                continue
            write_text(path, text)
            offsets = Offsets(first_number, self.session.places[steps.begin], steps.says, lines)
            try:
                planned = self.planner.plan(path, offsets)
            except TooLarge:
                end = steps.end_within(count - max(1, count // OMITTED_PART))
                continue
            shorter_end = self.end_with_few_states(steps, end, planned)
            if shorter_end < end:
                end = shorter_end
                continue
            pending = pending_places(planned.plan, durable_set)
            return PlannedWindow(planned, end, pending, longest_needs)

    def end_with_few_states(self, steps: Steps, end: int, planned: PlannedTrace) -> int:
        """The last step before `end` at which nothing is pending, and before which so few crash
        states come that all can be tried. `end` itself, where `planned` ends, if there is no such
        step, if `planned` has all crash states, or if the options don't ask for all. Errors as in
        has_few_states()."""
        if planned.plan.all_states is None or planned.plan.has_all_states:
            return end
        ends = ends_without_pending(steps, end, ReadingSets(planned.trace))
        low, high = 0, len(ends)
        # It is assumed that a longer part has no fewer states.
        while low < high:
            middle = (low + high) // 2
            if self.has_few_states(steps, ends[middle]):
                low = middle + 1
            else:
                high = middle
        return ends[low - 1] if low else end

    def has_few_states(self, steps: Steps, end: int) -> bool:
        """Whether the part from where `steps` is up to the step `end` has so few different crash
        states that all can be tried. Writes the part's trace, and removes it again, also after an
        error. Errors as in Planner.has_few_states(); OSError if the trace can't be written."""
        path = os.path.join(self.planner.guard.directory, 'shorter.trace')
        write_text(path, steps.trace_until(end)[0])
        try:
            return self.planner.has_few_states(path)
        finally:
            os.unlink(path)

    def needs_with_probe(self, path: str, text: str) -> Sequence[int]:
        """The set that each micro-operation of a trace needs, by the program. The last set is that
        of a further one at the end, the probe, which changes a file of its own and so needs exactly
        what is durable then. Writes the trace with the probe to `path`, and removes it again.
        Refused or TooLarge if the program refuses it."""
        write_text(path, with_probe(text))
        try:
            return self.planner.plan_prefixes(path).needs.masks
        finally:
            os.unlink(path)

    def fitting_count(self, needs: Sequence[int]) -> int:
        """How many of the first micro-operations fit in one plan with their prefixes, their holes
        and, if --lost is tried, a set of --lost for each. `needs` has the set that each
        micro-operation needs. Sets of --files aren't counted."""
        options, state_count = self.planner.options, 1
        for place, members in enumerate(needs):
            hole_count = 0 if options.prefixes else place + 1 - size_of(members)
            state_count += 1 + hole_count + options.has_lost
            if state_count > limits.STATES:
                return place
        return len(needs)

    def next_begin(self, previous: PlannedWindow) -> int:
        """The step at which the next window begins: that of the first pending micro-operation, but
        not before the middle of the previous window, which must not be the session's last one. It
        is the end of the previous window if nothing is pending, or if a window from that step
        wouldn't end later."""
        places, plan = self.session.places, previous.planned.plan
        first_place = previous.planned.offsets.operations
        middle_place = first_place + (len(plan.operations) + 1) // 2
        pending_place = first_place + min(previous.pending, default=len(plan.operations))
        step = next(
            number for number in range(previous.end, -1, -1) if places[number] <= pending_place
        )
        while places[step] < middle_place:
            step += 1
        return step if self.would_end_later(previous, step) else previous.end

    def would_end_later(self, previous: PlannedWindow, step: int) -> bool:
        """Whether a window from `step` on would end after the previous one, by fitting_count(). The
        previous one must not be the session's last. Each micro-operation is assumed to need what it
        needs there, without what comes before the step. False if `step` is the end of the previous
        window."""
        places = self.session.places
        begin = places[step] - previous.planned.offsets.operations
        needs = [members >> begin for members in previous.needs[begin:]]
        count = self.fitting_count(needs)
        return step < previous.end and (
            count == len(needs) or places[step] + count >= places[previous.end + 1]
        )

    def move_steps(self, steps: Steps, previous: PlannedWindow, step: int) -> None:
        """Moves `steps` to a later step of the window `previous` or to its end, with the tree that
        the program gives of that moment; `previous` must not be the session's last window. Refused
        if these tools, which apply the operations themselves, have another tree there: then `steps`
        has moved. Errors as in Crashfs.tree_with_root(): then it hasn't."""
        prefix = self.session.places[step] - previous.planned.offsets.operations
        words = [*previous.planned.parts[0].options.without_picks, '--state', str(prefix)]
        start_tree = self.planner.program.tree_with_root(words, self.planner.guard.environment)
        steps.advance_to(step, start_tree)
        if start_tree != steps.tree.entries:
            raise Refused(
                f'before line {self.session.steps[step].line} the program and these tools have '
                'different trees: one of them is wrong'
            )

    def note_cut_off(self, previous: PlannedWindow, next_place: int) -> None:
        """Adds to cut_off the lines of the micro-operations that are pending at the end of
        `previous` and come before next_place, the session's place where the next window begins. A
        line may be added several times."""
        operations = previous.planned.plan.operations
        for place in previous.pending:
            if operations[place].place < next_place:
                tried_count = len(operations) - place - 1
                self.cut_off.append(CutOff(operations[place].line, tried_count))


def windows_of(planner: Planner, options: Options, text: str) -> Windows:
    """The windows of the session in a trace's text, each of at most options.window
    micro-operations, or of LARGEST if that is None. Nothing is planned yet. Errors as in
    Session()."""
    return Windows(planner, Session(options.trace or '', text), options.window or LARGEST)


def ends_without_pending(steps: Steps, end: int, reading_sets: ReadingSets) -> List[int]:
    """The steps before `end`, ascending, at which nothing is pending, and before which more than a
    quarter of the part's micro-operations come. Of several steps with the same micro-operations
    before them only the last one, which comes after the syncs. The part is that of `steps` up to
    `end`, and reading_sets has its sets."""
    steps_by_size = {steps.size_until(step): step for step in range(steps.begin + 1, end)}
    least_size = steps.size_until(end) // LEAST_PART
    return [
        step
        for size, step in steps_by_size.items()
        if size > least_size and not reading_sets.has_pending(size)
    ]


def pending_places(plan: Plan, durable_set: int) -> List[int]:
    """The places of a plan, ascending, that aren't in the set of what is durable at its end;
    without those of acknowledged lines."""
    return list(places_of(plan.needs.full & ~plan.say_places & ~durable_set))


def remove_files(planned: PlannedTrace) -> None:
    """Removes the files of a window, its trace and its picks: these may be large, and there may be
    many windows. FileNotFoundError if a file is gone: the further ones stay then."""
    for path in planned.files():
        os.unlink(path)


def with_probe(text: str) -> str:
    """The text of a trace with one more file at the start, and with a last line that changes the
    length of this file. No path of the trace begins with the file's path."""
    header, _, other_lines = text.partition('\n')
    name = '/probe'
    while f'"{name}' in other_lines:
        name += '-'
    start_line = (
        f'{{"start":"file","path":"{name}","owner":"root","group":"root","mode":"600",'
        '"bytes":""}'
    )
    return f'{header}\n{start_line}\n{other_lines}{{"op":"truncate","path":"{name}","length":1}}\n'
