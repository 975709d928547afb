"""What a report says of its counts: what was checked and the verdict, in its first line; and in its
last lines the rest, if not all crash states could be tried."""

from __future__ import annotations

import math
from typing import Iterator, List

from crashfs_tools.checker.findings.wording import fail_verb
from crashfs_tools.checker.running.progress import duration_text
from crashfs_tools.checker.running.results import Head
from crashfs_tools.checker.running.runner import BAD, NO_ANSWER
from crashfs_tools.common.printable import count_text, escape_unprintable

from .counts import AcceptedStates, StateCounts

# So many words of causes are counted.
SHOWN_KINDS = 5
CONFIDENCE = 0.95


class Summary:
    """The first line of a report, from what was counted in a check. `accepted` has the states of
    accepted failures, which count as failing in `counts`."""

    def __init__(self, head: Head, counts: StateCounts, accepted: AcceptedStates) -> None:
        """All of these must be complete: what is added to them later may be missing."""
        self.head = head
        self.counts = counts
        self.accepted = accepted
        self.failing_count = counts.results[BAD] - accepted.total
        self.has_tried_all = counts.has_tried_all(head)

    @property
    def line(self) -> str:
        """What was checked, how many states there are, and the verdict; or that nothing was tried,
        if no window was."""
        counts, trace = self.counts, escape_unprintable(self.head.trace)
        if not counts.windows:
            return f'{trace}: nothing was tried{self.stop_text}'
        windows = f' in {counts.windows:,} windows' if counts.windows > 1 else ''
        return (
            f'{trace}: {counts.operations:,} micro-operations{windows}, {self.states_text}: '
            f'{self.verdict}'
        )

    @property
    def stop_text(self) -> str:
        """What stopped the check, in brackets after a blank; an empty text if nothing did."""
        return f' (stopped by {self.head.stopped})' if self.head.stopped else ''

    @property
    def states_text(self) -> str:
        """How many crash states there are, with `all` only if each was tried, and no loss was cut
        off by a window's end. If only a part of the states is tried, how many of all were tried; if
        not all crash states were asked for, how many states of some families there are."""
        counts = self.counts
        under = f' under {counts.profile}' if counts.profile else ''
        if counts.is_part:
            tried = f'{counts.tried_states:,} of {counts.total_text} crash states'
            return f'{tried}{under} tried{self.stop_text}'
        if not counts.are_all_listed:
            return f'{counts.states:,} states{under}, {counts.different_states:,} different'
        all_of = 'all ' if self.has_tried_all and not self.head.cut_off else ''
        sets = f' ({count_text(counts.set_count, "set")})' if counts.set_count else ''
        states = 'crash states' if counts.different_states > 1 else 'crash state'
        states += ' of the windows' if self.head.cut_off else ''
        return f'{all_of}{counts.different_states:,} {states}{under or sets}'

    @property
    def verdict(self) -> str:
        """How many states fail, are accepted, gave no answer or were not tried. It is `none fails`,
        without any more words, only if all states were tried and are good."""
        counts = self.counts
        if not counts.tried_states:
            return f'nothing was tried{self.stop_text}'
        parts = [*self.failing_parts, *self.accepted_parts]
        if counts.results[NO_ANSWER]:
            parts.append(f'{counts.results[NO_ANSWER]:,} gave no answer')
        if not counts.is_part and (counts.untried_count or self.head.has_rest):
            parts.append(f'{self.untried_text} not tried{self.stop_text}')
        return '; '.join(parts)

    @property
    def accepted_parts(self) -> List[str]:
        """A part of the verdict that counts the states of accepted failures; no part if there are
        none."""
        count = self.accepted.total
        if not count:
            return []
        if self.failing_count:
            return [f'{count:,} more {fail_verb(count)}, accepted']
        of_tried = '' if self.has_tried_all or self.counts.is_part else self.tried_words
        return [f'{count:,}{of_tried} {fail_verb(count)}, accepted']

    @property
    def failing_parts(self) -> List[str]:
        """A part of the verdict that counts the failing states that aren't accepted, with the
        SHOWN_KINDS most frequent kinds of their causes, or says that none fails. No part if all
        failing states are accepted."""
        counts = self.counts
        if not self.failing_count:
            return [] if self.accepted.total else [self.none_text]
        kinds = (counts.cause_kinds - self.accepted.cause_kinds).most_common(SHOWN_KINDS)
        causes = ', '.join(f'{count:,} {escape_unprintable(kind)}' for kind, count in kinds)
        fail = fail_verb(self.failing_count)
        if not self.has_tried_all and not counts.is_part:
            return [f'{self.failing_count:,}{self.tried_words} {fail}: {causes}']
        of_all = f' ({counts.all_failing_states:,} of all {counts.states:,} states)'
        return [f'{self.failing_count:,} {fail}{"" if counts.are_all_wanted else of_all}: {causes}']

    @property
    def none_text(self) -> str:
        """The words if no state fails: `none fails` if all states were tried, else that none of the
        tried ones fails."""
        if self.counts.is_part:
            return 'none of these fails'
        return 'none fails' if self.has_tried_all else f'none{self.tried_words} fails'

    @property
    def tried_words(self) -> str:
        """The words ` of the N tried`, with a blank first, and with the shard if there are several
        shards."""
        shard = self.head.shard
        by_shard = f' by shard {shard.part}/{shard.parts}' if shard.parts > 1 else ''
        return f' of the {self.counts.tried_states:,} tried{by_shard}'

    @property
    def untried_text(self) -> str:
        """How many states of the windows were not tried and, if the session goes on after the last
        window, that all later states weren't. An empty text if all states were tried."""
        counts = self.counts
        parts = [f'{counts.untried_count:,}'] if counts.untried_count else []
        if self.head.has_rest:
            parts.append(f'all states after micro-operation {counts.operations - 1:,}')
        return ' and '.join(parts)


def partial_check_lines(counts: StateCounts) -> Iterator[str]:
    """The last lines of a report if only some crash states were tried: what was drawn at random,
    how long all would take, and which option tries all. No lines if all were chosen, or if not all
    were asked for. With --in or in several windows there is no line on draws, since its bound would
    be wrong."""
    if not counts.is_part:
        return
    if counts.drawn_results and len(counts.all_states) == 1 and not counts.profile:
        yield drawn_text(counts)
    if counts.are_all_listed:
        total = counts.different_states
        yield f'all {total:,}{time_text(counts, total)}: --every'
        return
    most = counts.listing_limit
    yield f'all are more than {most:,}{time_text(counts, most, "more than ")}: --every N'


def time_text(counts: StateCounts, state_count: int, bound: str = '') -> str:
    """How long so many states would take, after a comma; `bound` comes before the time, such
    as `more than `. An empty text if it isn't known how long a state takes."""
    seconds = counts.seconds_per_state * state_count
    return f', and would take {bound}about {duration_text(seconds)}' if seconds else ''


def drawn_text(counts: StateCounts) -> str:
    """How many of the sets that were drawn at random, of which at least one was tried, fail or gave
    no answer. If all are good, also which share of all sets may fail at most, with the probability
    CONFIDENCE; if one gave no answer, no share is known."""
    drawn, failing = sum(counts.drawn_results.values()), counts.drawn_results[BAD]
    no_answer = counts.drawn_results[NO_ANSWER]
    no_answer_text = f'; {no_answer:,} gave no answer' if no_answer else ''
    if failing:
        return f'{failing:,} of {drawn:,} drawn at random {fail_verb(failing)}{no_answer_text}'
    if no_answer:
        return f'{drawn:,} drawn at random: none fails{no_answer_text}'
    sets = f'{counts.set_count:,} sets' if counts.set_count is not None else 'sets'
    share = share_text(1 - (1 - CONFIDENCE) ** (1 / drawn))
    return (
        f'{drawn:,} drawn at random, none fails: with {CONFIDENCE * 100:.0f} % confidence fewer '
        f'than {share} of the {sets} do'
    )


def share_text(share: float) -> str:
    """A share, above 0 and up to 1, as a percentage with two significant digits, rounded up, such
    as `0.30 %`."""
    digits = 1 - math.floor(math.log10(share * 100))
    return f'{math.ceil(share * 100 * 10**digits) / 10**digits:.{max(0, digits)}f} %'
