"""What reports leave out: how much of each kind they show, and how they count the rest."""

import json
import re
import unittest
from collections import Counter
from dataclasses import replace
from datetime import date
from pathlib import Path
from unittest import mock

from crashfs_tools.campaign import report as campaign_report
from crashfs_tools.campaign.book import Book
from crashfs_tools.checker.findings.accepted_failures import (
    Acceptance,
    AcceptedFailure,
    AcceptedFailures,
)
from crashfs_tools.checker.findings.advice import AllSyncs, FailingCounts
from crashfs_tools.checker.report import page, summary, text
from crashfs_tools.checker.report.counts import AcceptedStates, StateCounts
from crashfs_tools.checker.report.junit import junit_pieces
from crashfs_tools.checker.report.summary import Summary
from crashfs_tools.checker.report.text import ReportText
from crashfs_tools.checker.running.results import Head
from crashfs_tools.checker.running.runner import BAD, NO_ANSWER, Outcome
from crashfs_tools.checker.states.plan import AllStates
from crashfs_tools.common.trace_lines import TraceLine

from .test_groups import HEADER, line, report_of


def report_of_files(count):
    """A report of a session that makes so many files, and then acknowledges them; each state fails
    that lacks the acknowledged last one."""
    names = [f'/f{number}' for number in range(count)]
    session = ''.join(line('creat', name) for name in names) + line('say', text='all are there')
    return report_of(
        HEADER + session, lambda files, says: '' if names[-1] in files or not says else 'lost: f'
    )


class Entries(unittest.TestCase):
    def setUp(self):
        self.report = report_of_files(6)
        self.text, self.group = ReportText(self.report), self.report.groups()[0]

    def test_of_accepted_entries_only_the_first_are_shown(self):
        accepted = AcceptedFailure('lost: f', '', '', 'we know')
        groups = [replace(self.group, acceptance=Acceptance(accepted, False)) for _ in range(3)]
        for most, more in ((1, ['  and 2 more that are accepted']), (3, [])):
            with self.subTest(most), mock.patch.object(text, 'SHOWN_GROUPS', most):
                lines = self.text.accepted_lines(groups)
                self.assertEqual(len([one for one in lines if 'accepted: ' in one]), most)
                self.assertEqual(lines[2 * most :], more)

    def test_a_line_that_the_report_lacks_has_its_number(self):
        self.assertEqual(self.text.line_text(2), 'line 2 (creat /f0)')
        self.assertEqual(self.text.line_text(99), 'line 99 ()')

    def test_all_advised_syncs_need_those_of_each_window_with_failures(self):
        syncs = AllSyncs(frozenset({(2, '/')}), FailingCounts(5, 1))
        (window,) = self.report.windows
        whole = window._replace(groups=[], all_syncs=None)
        for tried, wanted in (
            ((syncs, syncs), syncs._replace(failing_counts=FailingCounts(10, 2))),
            ((syncs, None), None),
            ((None,), None),
            ((syncs,), syncs),
        ):
            self.report.windows = [whole, *(window._replace(all_syncs=one) for one in tried)]
            self.assertEqual(self.report.all_advised_syncs(), wanted)

    def test_no_case_of_junit_takes_less_than_no_time(self):
        self.report.windows[0].groups[0].rerun_seconds = 1e6
        file = ''.join(junit_pieces(self.report))
        self.assertEqual(re.findall('<testcase .* time="(.*)"', file), ['1000000.000', '0.000'])

    def test_only_a_failure_is_accepted_and_until_its_last_day(self):
        entry = self.group.as_accepted._replace(why='we know', until=date(2026, 11, 29))
        for result, day, is_accepted in ((BAD, 29, True), (BAD, 30, False), (NO_ANSWER, 29, False)):
            group = replace(self.group, outcome=self.group.outcome._replace(result=result))
            self.report.accept_list = AcceptedFailures([entry], date(2026, 11, day))
            self.report.mark_accepted(group)
            self.assertEqual(group.accepted_entry, entry if is_accepted else None, (result, day))
            self.assertEqual(group.acceptance is None, result == NO_ANSWER)

    def test_of_covered_entries_the_first_are_shown_with_sentences_of_new_kinds_only(self):
        other = replace(self.group, outcome=Outcome(BAD, 'torn: f'))
        with mock.patch.object(text, 'SHOWN_GROUPS', 3):
            lines = self.text.covered_lines([self.group], [self.group, other, other, other])
        self.assertEqual(lines[0], '  with these syncs these entries are gone too:')
        causes = [one.split()[0] for one in lines[1:-1] if '--state' in one]
        self.assertEqual(causes, ['lost:', 'torn:', 'torn:'])
        self.assertEqual(len([one for one in lines if 'was not durable' in one]), 1)
        self.assertIn('torn:', lines[2])
        self.assertIn('was not durable', lines[3])
        self.assertEqual(lines[-1], '    and 1 more')
        self.assertEqual(self.text.covered_lines([self.group], []), [])

    def test_of_the_lines_that_an_example_lacks_the_first_are_named(self):
        lost = self.group.lost_line.number
        group = replace(self.group, lost_lines=[2, 3, 4, 5, lost], needed_lines=[3])
        number = group.example.number
        for most, named in ((2, '4 (creat /f2) and 1 more line'), (3, '4 (creat /f2), line 5')):
            with self.subTest(most), mock.patch.object(text, 'SHOWN_LINES', most):
                (shown,) = self.text.other_loss_lines(group)
                begin = f'state {number} also lacks line 2 (creat /f0), line {named}'
                self.assertTrue(shown.startswith(begin), shown)

    def test_of_syncs_that_are_not_enough_the_first_are_named(self):
        syncs = [TraceLine(number, 'fsync', '/f1') for number in (3, 4, 5)]
        group = replace(self.group, other_syncs=syncs)
        self.assertTrue(group.advice.syncs)
        with mock.patch.object(text, 'SHOWN_LINES', 2):
            lines = text.other_sync_lines(group)
        self.assertEqual(
            lines, [f'line {number} is fsync /f1, which is not enough' for number in (3, 4)]
        )


class Counts(unittest.TestCase):
    def test_the_most_frequent_kinds_of_causes_are_counted(self):
        counts = StateCounts(1, 9, 9, 9, 9, 9, 7, [AllStates(9, True)])
        counts.results[BAD] = 7
        counts.cause_kinds.update({'torn': 1, 'lost': 4, 'old': 2})
        with mock.patch.object(summary, 'SHOWN_KINDS', 2):
            self.assertEqual(
                Summary(Head('t', '', []), counts, AcceptedStates(0, Counter())).line,
                't: 9 micro-operations, all 9 crash states (9 sets): 7 fail: 4 lost, 2 old',
            )

    def test_what_was_not_tried_is_counted_and_named(self):
        for wanted, has_rest, untried in (
            (9, False, ''),
            (12, False, '; 3 not tried'),
            (12, True, '; 3 and all states after micro-operation 8 not tried'),
            (9, True, '; all states after micro-operation 8 not tried'),
        ):
            counts = StateCounts(1, 9, 9, 9, wanted, 9, all_states=[AllStates(9, True)])
            head = Head('t', '', [], has_rest=has_rest)
            verdict = Summary(head, counts, AcceptedStates(0, Counter())).verdict
            self.assertEqual(
                verdict, f'none of the 9 tried fails{untried}' if untried else 'none fails'
            )

    def test_states_that_are_not_all_listed_are_counted_by_a_bound(self):
        for all_states, bound in (
            ([AllStates(5, True, most=100)], '40'),
            ([AllStates(5, True, most=100), AllStates(6, True, most=100)], '40'),
            ([AllStates(7_000, False, most=100)], '7,000'),
            ([AllStates(None, False, most=100)], 'more than 1,000,000'),
            ([AllStates(5, True, most=100), AllStates(None, False, most=200)], 'more than 200'),
        ):
            counts = StateCounts(len(all_states), different_states=40, all_states=all_states)
            self.assertEqual(counts.total_text, bound)


class Pages(unittest.TestCase):
    def test_of_a_session_in_windows_only_lines_near_the_pairs_are_shown(self):
        report = report_of_files(9)
        marked = {one.number for group in report.groups() for one in text.lines_of_pair(group)}
        self.assertEqual(marked, {10, 11})
        for windows, shown in ((1, range(2, 12)), (2, range(8, 12))):
            report.counts.windows = windows
            with self.subTest(windows), mock.patch.object(page, 'NEAR_LINES', 2):
                rows = list(page.session_lines(report, report.groups()))
                numbers = [int(re.search(r'<td>(\d+)<', row)[1]) for row in rows]
                self.assertEqual(numbers, list(shown))
                pairs = {number for number, row in zip(numbers, rows) if ' pair">' in row}
                self.assertEqual(pairs, marked)

    def test_the_first_windows_are_drawn(self):
        report = report_of_files(2)
        report.drawings *= 3
        report.counts.windows = 5
        with mock.patch.object(page, 'MOST_DRAWINGS', 2):
            self.assertEqual(len(json.loads(page.script_data(report))), 2)
            self.assertIn('These are 2 of 5 windows', ''.join(page.states_section(report)))
        report.counts.windows = 3
        self.assertNotIn('These are', ''.join(page.states_section(report)))


class Campaigns(unittest.TestCase):
    def test_the_first_sessions_without_a_verdict_are_named(self):
        book = Book(Path('b'), [], 4, 3, faults=[(1, 'slow'), (2, 'gone'), (3, 'gone')])
        with mock.patch.object(campaign_report, 'MOST_FAULTS', 2):
            lines = list(campaign_report.report_lines(mock.Mock(), book))
        self.assertEqual(
            lines,
            [
                '3 sessions: none fails; 3 sessions without a verdict',
                '    seed 1: slow',
                '    seed 2: gone',
            ],
        )


if __name__ == '__main__':
    unittest.main()
