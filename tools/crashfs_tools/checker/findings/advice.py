"""The advice of an entry: a sentence, and what would repair it."""

from __future__ import annotations

from dataclasses import dataclass, field
from typing import Dict, FrozenSet, List, NamedTuple, Optional, Tuple

from crashfs_tools.common.printable import count_text
from crashfs_tools.common.trace_lines import TraceLine

from .sync_points import LinePairs, first_path_change, is_synced, sync_points
from .wording import fail_verb, failing_states_text

ATOMIC = 'write a new file, sync it, rename it, sync the directory'
TORN_WRITE = (
    f'a record that recovery may drop needs a checksum that zeros fail; for all else, {ATOMIC}'
)
TORN_RENAME = 'a rename within one directory is one change'
ONE_CHANGE = f'no sync helps: make these lines one change ({ATOMIC})'
NOT_REPRODUCIBLE = (
    'not reproducible: another run passed',
    'does COMMAND share a port or a place with other runs? (try --jobs 1)',
)


class FailingCounts(NamedTuple):
    """How many different states fail or gave no answer in all, before and after a change of the
    trace."""

    before: int
    after: int

    @property
    def is_lower(self) -> bool:
        """Whether fewer states fail after the change than before it."""
        return self.after < self.before

    @property
    def text(self) -> str:
        """How many states fail after the change and before it, as `2 states fail, 5 before`; only
        `none fails` if none fails after the change."""
        if not self.after:
            return 'none fails'
        return f'{failing_states_text(self.after)}, {self.before:,} before'


class AllSyncs(NamedTuple):
    """All advised syncs together, each with its line and path, and the result of trying them at
    once."""

    points: FrozenSet[Tuple[int, str]]
    failing_counts: FailingCounts


@dataclass
class AdviceResult:
    """What the advice on a group does, tried on a copy of the trace; all numbers count different
    states, and one without an answer counts as failing. The group has group_states, of which a
    crash of the copy may still leave states_left. Of the copy's other states other_failures fail,
    of which earlier_failures failed without the advice too. failing_counts has how many fail in
    all, without the advice and with it."""

    states_left: int
    group_states: int
    other_failures: int
    earlier_failures: int = 0
    failing_counts: FailingCounts = FailingCounts(0, 0)

    def __add__(self, other: AdviceResult) -> AdviceResult:
        """The results for two groups of different windows that are one entry, added up. A failing
        state that both windows have may count twice, except in states_left and group_states."""
        own_counts, other_counts = self.failing_counts, other.failing_counts
        return AdviceResult(
            self.states_left + other.states_left,
            self.group_states + other.group_states,
            self.other_failures + other.other_failures,
            self.earlier_failures + other.earlier_failures,
            FailingCounts(
                own_counts.before + other_counts.before, own_counts.after + other_counts.after
            ),
        )

    def text(self, sync_count: int) -> str:
        """A sentence on advice that helps: how many of the group's states are left, that the syncs
        aren't enough if any is, and how many other states fail. sync_count is how many syncs are
        advised."""
        syncs = 'that sync' if sync_count == 1 else f'those {sync_count:,} syncs'
        left = f'{self.states_left:,} of these {self.group_states:,} states are left'
        if self.group_states == 1:
            left = f'this state is {"still" if self.states_left else "not"} left'
        if self.states_left:
            left += f', so {"one sync is" if sync_count == 1 else "they are"} not enough'
        return f'tried: with {syncs} {left}, and {self.other_failures_text}'

    @property
    def other_failures_text(self) -> str:
        """How many other states fail, as `no other fails` or `2 others fail`; `2 others still fail`
        if all of them failed without the advice too."""
        count = self.other_failures
        if count == 0:
            return 'no other fails'
        still = ' still' if self.earlier_failures == count else ''
        return f'{count_text(count, "other")}{still} {fail_verb(count)}'

    def not_enough_text(self, remedy: str) -> str:
        """A sentence on advice that doesn't help: the remedy, and how many states fail with it and
        without it, in all."""
        counts = self.failing_counts
        failing = f'{failing_states_text(counts.after)} then, {counts.before:,} before'
        return f'tried, and not enough alone: {remedy} ({failing})'


@dataclass
class Advice:
    """text is the sentence, in lines, and remedy what to do, or empty. syncs has the advised syncs:
    the path to sync, by the number of the line after which it is synced. result is None if the
    advice wasn't tried."""

    text: List[str] = field(default_factory=list)
    remedy: str = ''
    syncs: Dict[int, str] = field(default_factory=dict)
    result: Optional[AdviceResult] = None

    def lines(self) -> List[str]:
        """The lines of a report: the sentence, the remedy, and the result if the advice was tried.
        If no fewer states fail with the advice, the remedy is only a part of the result."""
        if self.result is None:
            return self.text + ([self.remedy] if self.remedy else [])
        if not self.result.failing_counts.is_lower:
            return [*self.text, self.result.not_enough_text(self.remedy)]
        return [*self.text, self.remedy, self.result.text(len(self.syncs))]


def loss_advice(
    kept: TraceLine, lost: TraceLine, pairs: LinePairs, lines: Dict[int, TraceLine]
) -> Advice:
    """The advice for states that have the line `kept` and lack the earlier line `lost`: a sync
    between the two. Its syncs are as few as serve all `pairs`, which should have these two lines;
    the remedy names the sync between them, with a line there that it must come before, and counts
    the others. `lines` has the trace's lines by number. If no sync makes the lost line durable,
    there is no remedy and no sync."""
    path = lost.path_to_fsync
    sentence = f'{lost.text_with_number} was not durable when {kept_text(kept)}'
    if path is None:
        return Advice([sentence])
    syncs = sync_points(pairs, lines)
    change = first_path_change(path, range(lost.number + 1, kept.number), lines)
    change_text = f', before {change.text_with_number}' if change else ''
    other_count = len(syncs) - 1
    others_text = f' (and at {count_text(other_count, "more place")})' if other_count > 0 else ''
    remedy = f'{sync_text(path, lost, lines)} between them{change_text}{others_text}'
    return Advice([f'{sentence}:'], remedy, syncs)


def sync_text(path: str, lost: TraceLine, lines: Dict[int, TraceLine]) -> str:
    """The beginning of a remedy: to sync the path that makes a lost line durable, that of the line
    itself or of a directory. The text says if the session never syncs this directory; `lines` has
    the trace's lines by number."""
    if lost.path == path:
        return f'fsync {path}'
    if is_synced(path, lines):
        return f'fsync the directory {path}'
    return f'the directory {path} is never synced: fsync it'


def kept_text(kept: TraceLine) -> str:
    """The end of the sentence `line N was not durable when ..`: that an acknowledged line
    acknowledged its text, which may be cut, or that another line was durable."""
    if kept.word == 'say':
        return f'line {kept.number} acknowledged "{kept.details}"'
    return f'{kept.text_with_number} was'


def torn_advice(line: TraceLine, kept_part: str) -> Advice:
    """The advice for a line of which a crash kept only a part. kept_part says in words what the
    crash kept and what it lost. There are no syncs, since none helps."""
    remedy = TORN_RENAME if line.word == 'rename' else TORN_WRITE
    return Advice(
        [f'{line.text_with_number} was torn: a crash kept {kept_part}'],
        f'no sync helps: {remedy}',
    )


def no_loss_advice(
    kept: Optional[TraceLine], lost: Optional[TraceLine], verb: str = 'fails'
) -> Advice:
    """The advice for a failure that needs no loss, if no better remedy is known. States fail from
    the line `kept` on (None: from the beginning) until the line `lost` repairs them (None: to the
    end, and there is no remedy); the verb says how. If `lost` is an acknowledged line, the remedy
    is a question about COMMAND; if only `kept` is one, a question about `kept`; else to make the
    lines one change. There are no syncs."""
    begin = kept.text_with_number if kept else 'the beginning'
    if lost is None:
        return Advice([f'from {begin} on it {verb}, though nothing is lost'])
    sentence = f'from {begin} until {lost.text_with_number} it {verb}, though nothing is lost'
    if lost.word == 'say':
        return Advice(
            [sentence],
            'a crash between them leaves a change that is not acknowledged yet: does COMMAND '
            'accept it?',
        )
    if kept is not None and kept.word == 'say':
        question = f'does line {kept.number} acknowledge something that is not stored yet?'
        return Advice([sentence], f'{question} {if_no_acknowledgement(kept)}')
    return Advice([sentence], ONE_CHANGE)


def if_no_acknowledgement(line: TraceLine) -> str:
    """What to do about an acknowledged line that acknowledges nothing, as a banner."""
    return f'If line {line.number} acknowledges nothing, print it on standard error'


def overwriting_text(kept: TraceLine, lost: TraceLine) -> str:
    """The remedy if the line `kept` overwrites bytes that are needed until the later line `lost` is
    durable: to write to another place."""
    return (
        f'no sync helps: line {kept.number} overwrites bytes that are needed until '
        f'{lost.text_with_number} is durable: write to another place until then'
    )


def swap_text(kept: TraceLine, lost: TraceLine) -> str:
    """The remedy if fewer states fail when the line `lost` comes before the line `kept`: to do the
    two lines in that order."""
    return (
        f'no sync helps: do line {lost.number} before line {kept.number}, with a sync between them'
    )
