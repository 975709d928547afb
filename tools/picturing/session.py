"""A session as the model has it: its lines, its micro-operations, and all sets that a crash may
leave of them."""

from __future__ import annotations

from dataclasses import dataclass
from pathlib import Path
from typing import Dict, List, NamedTuple, Optional, Set

from crashfs_tools.checker.states.place_sets import places_of
from crashfs_tools.checker.states.plan import PlannedMicroOperation
from crashfs_tools.common.trace_lines import SYNCS, TraceLine
from crashfs_tools.reading.every import every_set
from crashfs_tools.reading.order import Order, changed_marks
from crashfs_tools.reading.trees import Trees
from crashfs_tools.reading.trace import Reading, parse_trace

from .checked import CheckedExample


# The rule by which both micro-operations that have a mark stay in order, by the mark's kind.
RULES_OF_MARKS = {'entry': 'P2', 'directory': 'P2', 'rights': 'P7', 'block': 'P1', 'size': 'P1'}


@dataclass(frozen=True)
class Row:
    """A row of a picture of a session: a micro-operation with its place, or a line that syncs,
    whose place is None. `words` say what it does, and to which file."""

    line: TraceLine
    place: Optional[int]
    words: str

    @property
    def classes(self) -> str:
        """The classes of its words in a picture: a line that syncs has another colour."""
        return 'code sync' if self.place is None else 'code ink'


class Need(NamedTuple):
    """A place that needs an earlier place, and the rule of this need."""

    later: int
    earlier: int
    rule: str


@dataclass(frozen=True)
class ModelledSession:
    """The session of a checked trace: its lines by their numbers, its micro-operations with their
    order, and all sets that a crash may leave of them, in the order of every_set(). `reading` is
    the trace by the second reading; failing_sets is as find_failing_sets() returns it. A set is an
    int with a bit for each place."""

    lines: Dict[int, TraceLine]
    operations: List[PlannedMicroOperation]
    reading: Reading
    order: Order
    sets: List[int]
    failing_sets: Set[int]

    def rows_of_line(self, line: TraceLine) -> List[Row]:
        """The rows of a line: one without a place if the line syncs, else one for each of its
        micro-operations, which may be none."""
        if line.word in SYNCS:
            return [Row(line, None, line.text)]
        return [
            Row(line, place, row_words(operation.kind, line))
            for place, operation in enumerate(self.operations)
            if operation.line == line.number
        ]

    def rows(self) -> List[Row]:
        """The rows of all lines, in the order of the session."""
        return [row for line in self.lines.values() for row in self.rows_of_line(line)]

    def directly_needed_places(self, later: int) -> List[int]:
        """The earlier places that a place needs, ascending, without those that it needs only
        because a place between them needs them."""
        needs = self.order.needs
        between_sets = [needs[between] for between in places_of(needs[later])]
        return [
            earlier
            for earlier in places_of(needs[later])
            if not any(between_set >> earlier & 1 for between_set in between_sets)
        ]

    def direct_needs(self) -> List[Need]:
        """The needs of all places, but only of directly_needed_places(); sorted by the place, then
        by the needed place."""
        return [
            Need(later, earlier, self.rule_of_need(later, earlier))
            for later in range(len(self.order.needs))
            for earlier in self.directly_needed_places(later)
        ]

    def rule_of_need(self, later: int, earlier: int) -> str:
        """The rule by which a place needs an earlier place, which it must need: P5 if a sync
        between them covers the earlier one; else P9 if the earlier one is an acknowledged line;
        else P2, P7 or P1 if both change one name or directory, one file's rights, or another thing;
        else P3. True of traces of version 3 with the profile `blocks` and no link."""
        if self.order.synced_sets[later] >> earlier & 1:
            return 'P5'
        if self.operations[earlier].kind == 'say':
            return 'P9'
        operations = self.reading.operations
        earlier_marks = set(changed_marks(operations[earlier]))
        shared_marks = earlier_marks & set(changed_marks(operations[later]))
        if not shared_marks:
            return 'P3'
        # Several shared marks are an entry and the directory that it gets or loses: one rule.
        (rule,) = {RULES_OF_MARKS[str(mark[0])] for mark in shared_marks}
        return rule


def model_session(checked: CheckedExample, trace_path: Path) -> ModelledSession:
    """The session of a check's trace, which is read again from its path. All its sets are listed,
    so it must be short. OSError if the trace can't be read."""
    reading = parse_trace(trace_path.read_bytes())
    order = Order(reading)
    sets = list(every_set(order))
    return ModelledSession(
        checked.report.head.lines,
        checked.findings.plan.operations,
        reading,
        order,
        sets,
        find_failing_sets(checked, reading, sets),
    )


def find_failing_sets(checked: CheckedExample, reading: Reading, sets: List[int]) -> Set[int]:
    """Those of some allowed sets that leave a state in which the check's command failed or gave no
    answer: also sets that the check didn't try, since it tries only the first set that leaves a
    state. `reading` must be the check's trace."""
    plan, trees = checked.findings.plan, Trees(reading)
    numbers = (state.number for group in checked.report.groups() for state in group.states)
    failing_states = {trees.digest_and_says(plan.kept[number]) for number in numbers}
    return {kept_set for kept_set in sets if trees.digest_and_says(kept_set) in failing_states}


def row_words(kind: str, line: TraceLine) -> str:
    """The words of a micro-operation's row: its kind, and then the text that its line acknowledges
    or, if it is no say, the path of the line without the first slash."""
    return f'{kind} {line.details if kind == "say" else line.path.lstrip("/")}'
