"""How the files of a failing state differ from those of the nearest good one."""

from __future__ import annotations

from typing import Iterator, List, Optional, Tuple

from crashfs_tools.checker.running.runner import GOOD
from crashfs_tools.checker.running.trials import Trials
from crashfs_tools.checker.states.place_sets import size_of
from crashfs_tools.checker.states.plan import State
from crashfs_tools.common import sparse
from crashfs_tools.common.entry import Entries, Entry

from .groups import Difference, Findings, Group
from .wording import kind_text, size_text

# So many lines are shown of each entry, and so many entries have them: the largest.
SHOWN_LINES, ENTRIES = 20, 5
SHOWN_BYTES = 8


def find_differences(trials: Trials, findings: Findings) -> None:
    """Compares the states of compared_states(), and sets the `difference` of these groups, with its
    first SHOWN_LINES lines. ProgramFault or KeyError if the program lacks a state: then some of the
    groups, or all, have no difference."""
    compared = compared_states(findings)
    examples = [group.example.number for group, _ in compared]
    trials.trees.load([*examples, *(good_state.number for _, good_state in compared)])
    for group, good_state in compared:
        numbers = [group.example.number, good_state.number]
        lines = list(difference_lines(*trials.trees.of_states(numbers)))
        group.difference = Difference(good_state.number, lines[:SHOWN_LINES])


def compared_states(findings: Findings) -> List[Tuple[Group, State]]:
    """The first ENTRIES groups, the largest, each with the nearest good state of its example. Empty
    if no state is good."""
    groups = findings.groups[:ENTRIES]
    pairs = ((group, nearest_good_state(findings, group)) for group in groups)
    return [(group, good_state) for group, good_state in pairs if good_state is not None]


def nearest_good_state(findings: Findings, group: Group) -> Optional[State]:
    """The good state that differs from a group's example in the fewest micro-operations, of several
    the first; None if no state of the window was found good."""
    kept_sets, outcomes = findings.plan.kept, findings.outcomes_by_state
    example_set = kept_sets[group.example.number]
    good_states = [
        state
        for state in findings.plan.states
        if state.number in outcomes and outcomes[state.number].result == GOOD
    ]
    if not good_states:
        return None
    # Of equally near states min() returns the first.
    return min(good_states, key=lambda state: size_of(kept_sets[state.number] ^ example_set))


def difference_lines(failing: Entries, good: Entries) -> Iterator[str]:
    """How a failing tree differs from a good one: a line for each path that differs, in the order
    of paths. A line names only the first difference, in this order: that one state lacks the path,
    then the kind, the bytes and the rights."""
    for path in sorted(failing.keys() | good.keys()):
        if path not in good:
            yield f'{path} ({size_text(failing[path])}) is only in the failing state'
        elif path not in failing:
            yield f'{path} ({size_text(good[path])}) is only in the good state'
        elif failing[path] != good[path]:
            yield f'{path} {difference_text(failing[path], good[path])}'


def difference_text(failing: Entry, good: Entry) -> str:
    """The sentence, without its subject, that names the first difference of the entries at one
    path, of kind, bytes or rights. The entries must not be equal."""
    if kind_text(failing) != kind_text(good):
        return f'is {kind_text(failing)}, in the good state {kind_text(good)}'
    if failing.data != good.data:
        return f'{sizes_text(failing, good)}{first_bytes_text(failing, good)}'
    return f'is {rights_text(failing)}, in the good state {rights_text(good)}'


def sizes_text(failing: Entry, good: Entry) -> str:
    """A part of a sentence about a file: its sizes in the failing state and in the good one, or its
    one size in both."""
    if size_text(failing) == size_text(good):
        return f'has {size_text(failing)} in both'
    return f'has {size_text(failing)}, in the good state {size_text(good)}'


def bytes_text(data: bytes) -> str:
    """Some bytes of a file: in quotes if all are printable ASCII, else as hexadecimal digits, and
    `its end` if there are none."""
    if data and all(0x20 <= byte < 0x7F for byte in data):
        return f'"{data.decode("ascii")}"'
    return data.hex() or 'its end'


def rights_text(entry: Entry) -> str:
    """The mode, in octal digits, the owner and the group of an entry."""
    return f'{entry.mode:03o} {entry.owner} {entry.group}'


def first_bytes_text(failing: Entry, good: Entry) -> str:
    """The end of a sentence about a file whose bytes in the failing state and in the good one must
    differ: the offset of the first difference, and up to SHOWN_BYTES of each from there. Both
    entries must be files."""
    assert failing.data is not None and good.data is not None
    place = sparse.first_difference(failing.data, good.data)
    failing_bytes = bytes(failing.data[place : place + SHOWN_BYTES])
    good_bytes = bytes(good.data[place : place + SHOWN_BYTES])
    texts = bytes_text(failing_bytes), bytes_text(good_bytes)
    return f'; at byte {place:,} {texts[0]}, in the good state {texts[1]}'
