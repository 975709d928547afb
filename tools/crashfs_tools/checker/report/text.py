"""A report as text, in lines."""

from __future__ import annotations

from dataclasses import dataclass
from typing import TYPE_CHECKING, List, Optional

from crashfs_tools.checker.findings.groups import Group, all_tried_states
from crashfs_tools.checker.findings.accepted_failures import AcceptedFailure
from crashfs_tools.checker.findings.wording import fail_text, joined_by
from crashfs_tools.checker.running.runner import BAD, GOOD
from crashfs_tools.common.printable import COLUMNS, count_text, escape_unprintable, folded_lines
from crashfs_tools.common.program import can_be_built
from crashfs_tools.common.trace_lines import TraceLine

from .counts import counts_by_profile, count_accepted_states
from .report import CheckReport
from .summary import Summary, partial_check_lines

if TYPE_CHECKING:
    from crashfs_tools.checker.findings.second_crashes import SecondCrash

SHOWN_GROUPS = 20
# So many lines are shown of what an entry's example lacks, and of the syncs that aren't enough.
SHOWN_LINES = 3
CAUSE_WIDTH = 52
# If no smaller loss was looked for, as in a shard.
ANY_LOSS = '; any of these losses may be the reason'
UNPROVED = 'unproved: the Python implementation computed these states, not crashfs'
VERSION_UNPROVED = (
    'unproved: the Python implementation computed these states, as crashfs takes no traces of '
    'version {} yet'
)
SETS_UNPROVED = 'unproved: the Python implementation found which states there are, not crashfs'
HOW_TO_BUILD = ' (tools/build builds crashfs)'
# How a profile is named if file systems were seen to keep to it (docs/DISKS.md).
SHOWN_PROFILES = {'journal': 'journal (ext4, XFS)'}
# How to learn which states `journal` allows, if the trace is of an older version.
VERSION_HINT = 'for ext4 and XFS, record with --trace-version 4'


@dataclass(frozen=True)
class ReportText:
    """The lines of a report, and those of its parts for the page, for JUnit and for TAP. Each is
    computed when it is asked for: what is added to the report later is in later lines too."""

    report: CheckReport

    def lines(self) -> List[str]:
        """The lines of the whole report, without their ends. Only those of first_lines() may be
        longer than COLUMNS: others are cut, and are whole in the JSON."""
        groups = self.report.groups()
        accepted = [group for group in groups if group.accepted_entry is not None]
        # Entries that the syncs of accepted entries remove are shown as any others.
        covered = [group for group in groups if group.is_covered and not accepted]
        shown = [
            group
            for group in groups
            if group.accepted_entry is None and (accepted or not group.is_covered)
        ]
        return self.first_lines() + [
            cut_text(escape_unprintable(line))
            for line in [
                *folded_lines(self.question_lines(), '  '),
                *self.entry_lines(shown),
                *self.all_syncs_lines(shown),
                *self.covered_lines(shown, covered),
                *self.accepted_lines(accepted),
                *self.missing_accepted_lines(),
                *self.cut_off_lines(),
                *self.recovery_lines(),
                *self.disk_lines(),
                *folded_lines(self.report.not_done, '  '),
                *folded_lines(partial_check_lines(self.report.counts), '  '),
                *self.cache_lines(),
            ]
        ]

    def entry_lines(self, shown: List[Group]) -> List[str]:
        """The lines of the first SHOWN_GROUPS entries. If there are more, a line that counts these,
        and the different states that are only in them: a state may be in several entries."""
        lines = [line for group in shown[:SHOWN_GROUPS] for line in self.group_lines(group)]
        others = shown[SHOWN_GROUPS:]
        if others:
            entries = f'{len(others):,} other {"entry" if len(others) == 1 else "entries"}'
            more = all_tried_states(others) - all_tried_states(shown[:SHOWN_GROUPS])
            states = f'{count_text(len(more), "more state")} in ' if more else ''
            lines.append(f'  and {states}{entries} (all are in the file of --json)')
        return lines

    def accepted_lines(self, accepted: List[Group]) -> List[str]:
        """The lines of the first SHOWN_GROUPS accepted groups, with their reasons, and a line that
        says how many more there are, if there are any. All groups must be accepted."""
        lines: List[str] = []
        for group in accepted[:SHOWN_GROUPS]:
            assert group.accepted_entry is not None
            cause = cut_text(escape_unprintable(f'accepted: {group.outcome.cause}'), CAUSE_WIDTH)
            lines.append(f'  {cause:<{CAUSE_WIDTH}} {states_and_example(group)}')
            lines += folded_lines([accepted_text(group.accepted_entry)], '    ')
        more = len(accepted) - SHOWN_GROUPS
        return lines + ([f'  and {more:,} more that are accepted'] if more > 0 else [])

    def missing_accepted_lines(self) -> List[str]:
        """The folded lines of the failures in the file of --accept that no entry is. They are
        `gone` if all crash states of the whole check were tried, else `not seen`."""
        counts = self.report.counts
        has_tried_all = counts.has_tried_all(self.report.head) and not counts.is_part
        is_gone = has_tried_all and counts.are_all_listed
        words = 'accepted, and gone' if is_gone else 'accepted, and not seen'
        missing = self.report.missing_accepted_failures()
        return folded_lines((f'{words}: {entry.name}' for entry in missing), '  ')

    def summary(self) -> str:
        """The line that says what was checked, and the verdict."""
        accepted = count_accepted_states(self.report.groups())
        return Summary(self.report.head, self.report.counts, accepted).line

    def all_syncs_lines(self, shown: List[Group]) -> List[str]:
        """A line for all advised syncs at once. No line unless several of the shown entries have
        advised syncs, and these were tried."""
        syncs = self.report.all_advised_syncs()
        advised = [group for group in shown if group.advice.syncs]
        if syncs is None or len(advised) < 2:
            return []
        count = len(syncs.points)
        how_many = 'both' if count == 2 else f'all {count:,}'
        return [f'  with {how_many} syncs {syncs.failing_counts.text}']

    def covered_lines(self, shown: List[Group], covered: List[Group]) -> List[str]:
        """The lines of the first SHOWN_GROUPS covered entries, whose states the advised syncs of
        the shown ones remove too, and how many more there are. Of the covered entries with one kind
        of cause only the first has its sentences, and only if no shown entry has that kind."""
        lines = ['  with these syncs these entries are gone too:'] if covered else []
        cause_kinds = {group.outcome.cause_kind for group in shown}
        for group in covered[:SHOWN_GROUPS]:
            states = states_and_example(group)
            cause = cut_text(escape_unprintable(group.outcome.cause), CAUSE_WIDTH - 2)
            lines.append(f'    {cause:<{CAUSE_WIDTH - 2}} {states}')
            if group.outcome.cause_kind not in cause_kinds:
                lines += folded_lines(self.trace_sentences(group), '      ')
                cause_kinds.add(group.outcome.cause_kind)
        if len(covered) > SHOWN_GROUPS:
            lines.append(f'    and {len(covered) - SHOWN_GROUPS:,} more')
        return lines

    def first_lines(self) -> List[str]:
        """The summary line. If the second reading took the program's place or found the sets, a
        line before it says so. These lines may have any length."""
        if self.report.head.refused_version:
            return [VERSION_UNPROVED.format(self.report.head.refused_version), self.summary()]
        if self.report.head.unproved:
            return [UNPROVED + (HOW_TO_BUILD if can_be_built() else ''), self.summary()]
        if self.report.counts.is_by_second_reading:
            return [SETS_UNPROVED, self.summary()]
        return [self.summary()]

    def question_lines(self) -> List[str]:
        """The question that is asked if COMMAND passes where all is lost. No line if some state
        fails: then it notices losses."""
        question = self.report.total_loss_question
        return [question] if question and not self.report.counts.results[BAD] else []

    def cache_lines(self) -> List[str]:
        """A line that counts the outcomes from earlier checks; no line if there are none."""
        count = self.report.cache_hits
        return [f'  {count_text(count, "outcome")} from earlier checks (--cache)'] if count else []

    def cut_off_lines(self) -> List[str]:
        """A line that names the first line of the trace whose loss wasn't tried to the session's
        end, since a window ended before the line was durable, and says how many more there are. No
        line if all losses were tried to the end."""
        if not self.report.head.cut_off:
            return []
        number, tried_count = self.report.head.cut_off[0]
        more = len({line for line, _ in self.report.head.cut_off}) - 1
        also = f', and so with {count_text(more, "more line")}' if more else ''
        return [
            f'  the loss of {self.line_text(number)} was tried for {tried_count:,} later '
            f'micro-operations only{also}'
        ]

    def recovery_lines(self) -> List[str]:
        """The lines on second crashes, during the recovery from the first one: the counts, all
        entries, and the recoveries that weren't tried. No line if no recovery was chosen."""
        if not self.report.recoveries:
            return []
        lines = [f'  {line}' for line in self.recovery_counts()]
        for group, second_crash in self.report.recovery_groups():
            lines += self.group_lines(group, second_crash)
        return lines + self.not_tried_lines()

    def recovery_counts(self) -> List[str]:
        """A line that counts the states of second crashes, and those of them that fail or gave no
        answer; then a line if the second reading computed some states, but not those of the first
        crash. At least one recovery must have been chosen."""
        tried = [recovery for recovery in self.report.recoveries if not recovery.fault]
        failing = sum(recovery.failing_count for recovery in tried)
        states = count_text(sum(recovery.tried_count for recovery in tried), 'different state')
        recoveries = count_text(len(tried), 'recovery', 'recoveries')
        lines = [f'{recoveries}: {states} of a second crash, {fail_text(failing)}']
        unproved = sum(recovery.unproved for recovery in tried)
        if unproved and not self.report.head.unproved:
            lines.append(
                f'unproved: the Python implementation computed the states of {unproved} of these'
            )
        return lines

    def not_tried_lines(self) -> List[str]:
        """A line for each recovery with a fault, in which no second crash was tried, with the fault
        as the reason."""
        return [
            f'  the recovery of state {recovery.state} was not tried: {recovery.fault}'
            for recovery in self.report.recoveries
            if recovery.fault
        ]

    @property
    def others_name(self) -> str:
        """The name of the test of all states that are in no entry, for JUnit and TAP: it counts the
        good states."""
        return f'all other states ({self.report.counts.results[GOOD]:,})'

    def others_fault_lines(self) -> List[str]:
        """Why the test of all states that are in no entry fails: a state or a recovery wasn't
        tried. No lines if the report is whole: then the test passes."""
        return [] if self.report.is_whole else [self.summary(), *self.not_tried_lines()]

    def disk_lines(self) -> List[str]:
        """The lines on what was seen on real disks, and all failures there that no tried state has;
        no line without --disks. They may be longer than COLUMNS."""
        if self.report.sightings is None:
            return []
        lines = [f'  {line}' for line in self.report.sightings.lines()]
        for failure in self.report.disk_failures():
            cause = cut_text(failure.outcome.cause, CAUSE_WIDTH)
            lines.append(f'  {cause:<{CAUSE_WIDTH}} {failure.explanation.reason.value}')
            lines += [f'    {line}' for line in failure.lines()]
        return lines

    def group_lines(self, group: Group, second_crash: Optional[SecondCrash] = None) -> List[str]:
        """The lines of an entry: its cause, which may be cut, with its states, and below it the
        details, folded. second_crash is None unless the entry is one of second crashes."""
        states = states_and_example(group, second_crash)
        cause = cut_text(
            escape_unprintable(group.outcome.cause), max(CAUSE_WIDTH, COLUMNS - len(states) - 3)
        )
        details = folded_lines(self.entry_details(group, second_crash), '    ')
        return [f'  {cause:<{CAUSE_WIDTH}} {states}', *details]

    def entry_details(self, group: Group, second_crash: Optional[SecondCrash]) -> List[str]:
        """The lines below the cause of an entry: those of second_crash_details() or, if
        second_crash is None, of details()."""
        if second_crash is None:
            return self.details(group)
        return second_crash_details(group, second_crash)

    def trace_sentences(self, group: Group) -> List[str]:
        """The sentences of an entry on lines of the trace, without what to do about them."""
        return [line.rstrip(':') for line in [*group.advice.text, *self.needed_loss_lines(group)]]

    def needed_loss_lines(self, group: Group) -> List[str]:
        """A line that names what else must be lost for the example to fail; no line if there is
        nothing."""
        lines = ', '.join(map(self.line_text, group.needed_lines))
        return [f'it fails only if this is lost too: {lines}'] if lines else []

    def details(self, group: Group) -> List[str]:
        """The lines below an entry's cause, not folded: the notes of its two lines, why the entry
        is accepted, the advice, which syncs aren't enough, what must be lost too, how many of its
        states lack one of the two lines and have the other, what its example also lacks, which
        profiles allow its states, and on which disks these were seen."""
        lines = [f'line {line.number}: {line.note}' for line in lines_of_pair(group) if line.note]
        lines += [*acceptance_lines(group), *group.advice.lines()]
        lines += [*other_sync_lines(group), *self.needed_loss_lines(group)]
        lines += [*explained_lines(group), *self.other_loss_lines(group)]
        if counts_by_profile(group):
            lines.append(profiles_text(group, are_all=self.report.counts.are_all_listed))
        if self.report.sightings is not None:
            numbers = [state.number for state in group.states]
            lines.append(self.report.sightings.text_of_states(numbers))
        return lines

    def other_loss_lines(self, group: Group) -> List[str]:
        """A line that names the first SHOWN_LINES lines of the trace that the example lacks, in
        addition to the lost line and to needed_lines, and says how many more there are, and whether
        the lost line is only a guess. No line if there are none, or if the failure needs no
        loss."""
        named = {group.lost_line.number if group.lost_line else 0, *group.needed_lines}
        other_lost = [number for number in group.lost_lines if number not in named]
        if not other_lost or not group.is_due_to_loss:
            return []
        shown = ', '.join(map(self.line_text, other_lost[:SHOWN_LINES]))
        more = len(other_lost) - SHOWN_LINES
        also = f' and {count_text(more, "more line")}' if more > 0 else ''
        guess = ANY_LOSS if group.pair.is_guess else ''
        return [f'state {group.example.number} also lacks {shown}{also}{guess}']

    def line_text(self, number: int) -> str:
        """A line of the trace, by its number, as sentences name it. The brackets are empty if the
        report lacks that line, as one may that was written by hand."""
        return self.report.head.lines.get(number, TraceLine(number, '')).text_with_number


def lines_of_pair(group: Group) -> List[TraceLine]:
    """The lost and the kept line of an entry, ascending by number, without a line that the entry
    doesn't have. A torn line, which is both, is there once."""
    lines = {line.number: line for line in (group.lost_line, group.kept_line) if line is not None}
    return [lines[number] for number in sorted(lines)]


def explained_lines(group: Group) -> List[str]:
    """A line that counts the states that lack the lost one of an entry's two lines and have the
    other. No line if these are none or all, or if the entry has one line, which was torn."""
    count = len(group.explained_states)
    if group.is_torn or not 0 < count < group.count:
        return []
    lack, have = ('lacks', 'has') if count == 1 else ('lack', 'have')
    if not group.is_due_to_loss:
        lack, have = have, lack
    return [f'{count:,} of these states {lack} the first of the two lines and {have} the second']


def other_sync_lines(group: Group) -> List[str]:
    """A line for each of the first SHOWN_LINES syncs that aren't enough; no line if no sync is
    advised."""
    syncs = group.other_syncs[:SHOWN_LINES] if group.advice.syncs else []
    return [f'line {sync.number} is {sync.text}, which is not enough' for sync in syncs]


def states_and_example(group: Group, second_crash: Optional[SecondCrash] = None) -> str:
    """How many different states an entry has, and the option that shows its example.
    second_crash is None unless the entry is one of second crashes."""
    example = f'--state {example_number(group, second_crash)}'
    if group.count == 1:
        return f'1 state: {example}'
    return f'{group.count:,} states, e.g. {example}'


def example_number(group: Group, second_crash: Optional[SecondCrash]) -> str:
    """The number of an entry's example as --state takes it: of an entry of second crashes after the
    number of the first crash's state and a slash."""
    number = str(group.example.number)
    return number if second_crash is None else f'{second_crash.state}/{number}'


def second_crash_details(group: Group, second_crash: SecondCrash) -> List[str]:
    """The lines below the cause of an entry of second crashes: why it is accepted, where its
    example's two crashes were, and the advice."""
    crashes = f'state {second_crash.state}, then a crash {second_crash.place}'
    return [*acceptance_lines(group), crashes, *group.advice.lines()]


def profiles_text(group: Group, *, are_all: bool) -> str:
    """The profiles that allow states of an entry, with how many if a profile allows only some, and
    those that allow none; counts_by_profile() must not be empty. are_all says whether all sets that
    leave the states were looked at; if not, the text says so. VERSION_HINT is last, if the group
    has it."""
    counts = {
        SHOWN_PROFILES.get(name, name): count for name, count in counts_by_profile(group).items()
    }
    has_parts = any(0 < count < group.count for count in counts.values())
    allowing = [
        f'{name}: {count:,}' if has_parts else name for name, count in counts.items() if count
    ]
    others = [name for name, count in counts.items() if not count]
    text = f'under {joined_by("and", allowing)}'
    if others:
        by_which = '' if are_all else 'by the sets that were tried '
        text += f'; {by_which}not under {joined_by("or", others)}'
    return f'{text} ({VERSION_HINT})' if group.has_version_hint else text


def acceptance_lines(group: Group) -> List[str]:
    """A line that says why an entry is accepted, or was until a day that has passed; no line for
    other entries."""
    if group.acceptance is None:
        return []
    entry, has_expired = group.acceptance
    return [f'accepted {accepted_text(entry)}{" (this day has passed)" if has_expired else ""}']


def accepted_text(entry: AcceptedFailure) -> str:
    """The reason why a failure is accepted, after the last day on which it is, if it has one."""
    return f'until {entry.until}: {entry.why}' if entry.until else entry.why


def cut_text(text: str, width: int = COLUMNS) -> str:
    """Cuts a text to at most `width` characters, which must be at least 2: a longer text ends in
    two dots."""
    return text if len(text) <= width else text[: width - 2] + '..'
