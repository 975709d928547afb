"""The report in the Test Anything Protocol, as harnesses and the packages of helpers/ read it."""

from __future__ import annotations

import datetime
import json
import re
import shutil
import subprocess
import unittest
from subprocess import PIPE
from typing import List
from xml.etree import ElementTree

from crashfs_tools.checker.findings.accepted_failures import AcceptedFailures
from crashfs_tools.checker.findings.second_crashes import Recovery
from crashfs_tools.checker.findings.sightings import (
    DiskCounts,
    DiskFailure,
    Explanation,
    Reason,
    Sightings,
)
from crashfs_tools.checker.report.report import CheckReport
from crashfs_tools.checker.report.tap import tap_pieces
from crashfs_tools.checker.report.text import ReportText
from crashfs_tools.checker.running.runner import BAD, GOOD, NO_ANSWER, Outcome

from .support import EXAMPLES, InFolder
from .test_groups import HEADER, findings_of, line, reported, write
from .test_nested import InRecoveries

TEXT = HEADER + line('creat', '/log') + line('say', text='one') + write('/log', 'row')
CAUSE = 'lost: the log #1 \\ is not there\n# SKIP no'


def log_report(cause: str = CAUSE) -> CheckReport:
    """Of a store whose log may be lost."""
    return reported(findings_of(TEXT, lambda files, says: cause if says > len(files) else ''))


def known_failures(report: CheckReport) -> AcceptedFailures:
    """The report's first entry as a known failure."""
    entry = report.groups()[0].as_accepted._replace(why='issue #7')
    return AcceptedFailures([entry], datetime.date(2026, 11, 29))


def stopped(report: CheckReport) -> CheckReport:
    """The report as it is if a time limit stopped the check."""
    report.head.stopped = 'the time limit'
    return report


def tap(report: CheckReport) -> List[str]:
    return ''.join(tap_pieces(report)).splitlines()


class Points(unittest.TestCase):
    def assert_fails_with_the_status(self, report: CheckReport, status: int) -> None:
        """The report has this status, the plan counts its tests, and one fails if it isn't 0."""
        lines = tap(report)
        self.assertEqual(report.status, status)
        self.assertEqual(lines[0], 'TAP version 13')
        tests = [line for line in lines[2:] if not line.startswith('# ')]
        self.assertEqual(lines[1], f'1..{len(tests)}')
        for number, test in enumerate(tests, 1):
            self.assertRegex(test, f'^(not )?ok {number} - ')
        failing = [test for test in tests if test.startswith('not ok ')]
        self.assertEqual(bool(failing), status != 0, lines)

    def test_a_failure_has_the_lines_of_its_entry(self) -> None:
        report = log_report('lost: the log')
        (group,) = report.groups()
        details = [f'#   {line}' for line in ReportText(report).details(group)]
        self.assertIn('#   the directory / is never synced: fsync it between them', details)
        self.assertEqual(
            tap(report),
            [
                'TAP version 13',
                '1..2',
                'not ok 1 - lost: the log',
                '# lost: the log',
                *details,
                f'#   state {group.example.number} of a.trace',
                f'ok 2 - all other states ({report.counts.results[GOOD]})',
            ],
        )

    def test_no_cause_ends_a_line_or_says_more_of_its_test(self) -> None:
        lines = tap(log_report('lost: #1 \\ x # SKIP y\n\x1b[m'))
        self.assertEqual(lines[2], r'not ok 1 - lost: \#1 \\ x \# SKIP y\\n\\x1b[m')
        self.assertEqual(lines[3], r'# lost: #1 \ x # SKIP y\n\x1b[m')

    def test_a_test_fails_exactly_if_the_status_is_not_0(self) -> None:
        self.assert_fails_with_the_status(log_report(), 1)
        self.assert_fails_with_the_status(log_report(''), 0)
        self.assert_fails_with_the_status(CheckReport(stopped(log_report('')).head), 3)
        self.assert_fails_with_the_status(stopped(log_report('')), 3)
        self.assert_fails_with_the_status(stopped(log_report()), 1)

    def test_a_state_without_an_answer_fails(self) -> None:
        findings = findings_of(TEXT, lambda files, says: 'slow' if says > len(files) else '')
        for number, outcome in findings.results.outcomes.items():
            if outcome.result == BAD:
                findings.results.outcomes[number] = Outcome(NO_ANSWER, outcome.cause)
        for group in findings.groups:
            group.outcome = Outcome(NO_ANSWER, group.outcome.cause)
        self.assert_fails_with_the_status(reported(findings), 3)

    def test_a_known_failure_is_skipped_with_its_reason(self) -> None:
        report = log_report()
        report.accept_list = known_failures(report)
        self.assert_fails_with_the_status(report, 0)
        cause = r'lost: the log \#1 \\ is not there\\n\# SKIP no'
        self.assertEqual(tap(report)[2], f'ok 1 - {cause} # SKIP issue #7')
        report.accept_list = known_failures(log_report('another'))
        self.assert_fails_with_the_status(report, 1)

    def test_what_was_not_tried_is_named(self) -> None:
        report = log_report('')
        report.recoveries = [Recovery(7, 0, fault='it had not ended after 10 seconds')]
        self.assert_fails_with_the_status(report, 3)
        self.assertRegex(tap(report)[-2], '^# a.trace: .*: none fails$')
        self.assertEqual(
            tap(report)[-1],
            '#   the recovery of state 7 was not tried: it had not ended after 10 seconds',
        )

    def test_a_failure_that_only_a_disk_left_is_a_test(self) -> None:
        report = log_report('')
        one = DiskFailure(Outcome(BAD, 'zeros: /log'), [1], {}, {}, Explanation(Reason.OUTSIDE))
        report.sightings = Sightings({'ext4': DiskCounts(9, 9, 1)}, {}, [one])
        self.assert_fails_with_the_status(report, 1)
        self.assertEqual(tap(report)[2], 'not ok 1 - zeros: /log (outside the model)')
        self.assertIn('#   no crash state has this tree', tap(report))


class Harness(InFolder):
    @unittest.skipUnless(shutil.which('prove'), 'prove not installed')
    def test_prove_reads_it(self) -> None:
        report = log_report()
        for known, status, wanted in (
            (None, 1, 'Failed test:  1\n'),
            (known_failures(report), 0, 'Result: PASS\n'),
        ):
            report.accept_list = known
            path = self.write('r.tap', ''.join(tap_pieces(report)))
            ran = subprocess.run(['prove', '-e', 'cat', path], stdout=PIPE, stderr=PIPE, text=True)
            self.assertEqual((ran.returncode, ran.stderr), (status, ''), ran.stdout)
            self.assertIn(wanted, ran.stdout)
            self.assertNotIn('Parse errors', ran.stdout)


class Command(InFolder):
    def test_the_command_writes_it_next_to_the_report(self) -> None:
        config = EXAMPLES / 'config'
        words = str(config / 'config.trace'), '--', str(config / 'check.sh')
        ran = self.run_tool('crashfs-check', '--tap', '-', '--json', 'r.json', *words)
        self.assertEqual(ran.returncode, 1)
        self.assertIn(': 12 fail: 12 lost\n', ran.stderr)
        (entry,) = json.loads(self.read('r.json'))['groups']
        lines = ran.stdout.splitlines()
        self.assertEqual(lines[3], '# ' + entry['cause'])
        self.assertEqual(lines[4:-2], ['#   ' + text for text in entry['text']])
        ran = self.run_tool('crashfs-check', '--merge', 'r.json', '--tap', 'r.tap')
        self.assertEqual(self.read('r.tap').splitlines()[:4], lines[:4])


class SecondCrashes(InRecoveries):
    def test_a_crash_during_recovery_is_a_test(self) -> None:
        ran = self.nested('--nested', '2', '--tap', 'r.tap', '--junit', 'r.xml')
        self.assertEqual((ran.returncode, ran.stderr), (1, ''), ran.stdout)
        text = self.read('r.tap')
        self.assertIn('\nnot ok 1 - lost: a=2 is not there\n# lost: a=2 is not there\n', text)
        self.assertRegex(text, r'\n#   state (\d+), then a crash at line \d+ of its recovery ')
        self.assertRegex(text, r'\n#   state \d+/\d+ of store.trace\n')
        self.assertTrue(re.search(r'\nok \d+ - all other states \(\d+\)\n$', text), text)
        suite = ElementTree.parse(self.path('r.xml')).getroot()
        tests = text.count('not ok ') + 1
        self.assertEqual(
            [suite.get(key) for key in ('tests', 'failures')], [f'{tests}', f'{tests - 1}']
        )
        self.assertEqual(suite[0].get('name'), 'lost: a=2 is not there')

    def test_one_that_is_accepted_is_called_so(self) -> None:
        lines = {'lost': 'write /table', 'kept': 'truncate /log', 'why': 'a reason'}
        for until, status, words in [
            ('', 0, 'accepted a reason'),
            ('2020-01-31', 1, 'accepted until 2020-01-31: a reason (this day has passed)'),
        ]:
            known = [{'cause': 'lost: a=2 is not there', **lines, 'until': until}]
            path = self.write('known.json', json.dumps(known))
            ran = self.nested('--nested', '2', '--accept', path, '--html', 'r.html')
            self.assertEqual((ran.returncode, ran.stderr), (status, ''), ran.stdout)
            self.assertIn(f' --state 4/5\n    {words}\n    state 4, then a crash ', ran.stdout)
            self.assertIn(f'<li>{words}</li>\n<li>state 4, then', self.read('r.html'))


if __name__ == '__main__':
    unittest.main()
