"""A second crash, during the recovery from the first."""

import json
import os
import re
import unittest
from types import SimpleNamespace
from unittest import mock

from crashfs_tools.checker.findings import nested as nested_module
from crashfs_tools.checker.findings.nested import (
    RecoveryRecorder,
    SecondCrashTrials,
    features_of,
    header_options,
    remove_says,
)
from crashfs_tools.checker.findings.second_crashes import Recovery
from crashfs_tools.checker.report.report import CheckReport
from crashfs_tools.checker.report.text import ReportText
from crashfs_tools.checker.running.results import Head, Results
from crashfs_tools.checker.running.runner import BAD, GOOD, Outcome
from crashfs_tools.common.command import Refused
from crashfs_tools.recorder.options import read_options

from .support import EXAMPLES, FAKE, PATIENCE, InFolder, needs_strace
from .test_check_command import RIGHTS, InStore
from .test_groups import THIRD, line, rename, write
from .test_pairs import LISTED, LOST, read_plan

FILE_RIGHTS = RIGHTS.replace('755', '644')
# Moves the log into the table, and may sync the table before it empties the log.
RECOVER = """\
#!/bin/sh
echo "recovering $CRASHFS_STATE"
if test -s log; then cat log >> table; {sync} : > log; fi
test "$CRASHFS_SAYS" = 0 || grep -qs a=2 table || {{ echo 'lost: a=2 is not there'; exit 1; }}
"""


# Replaces a page by another one as long as there is a log; a page of both fails.
REPLACE_PAGE = """\
#!/bin/sh
case $(cat page) in *A*0*|*0*A*) echo 'page is torn'; exit 1; esac
if test -f log; then printf %01024d 0 1<>page; sync page; rm log; fi
"""


def page_trace(version, profile, block):
    """A session that makes a log next to a page of 1,024 bytes."""
    return '\n'.join(
        [
            f'{{"trace":{version},"profile":"{profile}","block":{block},{RIGHTS}}}',
            f'{{"start":"file","path":"/page",{FILE_RIGHTS},"text":"{"A" * 1024}"}}',
            f'{{"op":"creat","path":"/log",{FILE_RIGHTS}}}',
            '{"op":"fsync","path":"/"}',
            '',
        ]
    )


class InRecoveries(InStore):
    def nested(self, *words, sync='', trace='store.trace'):
        command = self.write('recover.sh', RECOVER.format(sync=sync), 0o755)
        return self.run_tool(
            'crashfs-check',
            '--crashfs',
            FAKE,
            '--jobs',
            '2',
            *words,
            str(EXAMPLES / trace),
            '--',
            command,
        )


@needs_strace
class Recoveries(InRecoveries):
    def test_a_recovery_that_is_not_safe_itself_is_found(self):
        ran = self.nested('--nested', '2', '--json', 'r.json')
        self.assertEqual((ran.returncode, ran.stderr), (1, ''), ran.stdout)
        lines = ran.stdout.splitlines()
        self.assertRegex(lines[0], ': none fails$')
        self.assertRegex(
            lines[1], '  2 recoveries: [0-9]+ different states of a second crash, [0-9]+ fail$'
        )
        self.assertRegex(lines[2], '  lost: a=2 is not there +[0-9]+ states, e.g. --state [0-9]+/')
        self.assertRegex(
            lines[3],
            '    state [0-9]+, then a crash at line [0-9]+ of its recovery '
            r'\(truncate /log, 0 bytes\)',
        )
        self.assertIn('    fsync /table between them', lines)
        self.assert_nothing_left()
        one = json.loads(self.read('r.json'))['recoveries'][0]
        self.assertEqual(one['groups'][0]['text'][1], 'fsync /table between them')
        self.assertEqual(
            f"--state {one['state']}/{one['groups'][0]['example']}", lines[2].partition('e.g. ')[2]
        )

    def test_a_report_with_second_crashes_is_not_merged(self):
        """The merged report would lack the failures of second crashes: none fails, status 0."""
        self.assertEqual(self.nested('--nested', '2', '--json', 'r.json').returncode, 1)
        ran = self.run_tool('crashfs-check', '--merge', 'r.json')
        self.assertEqual(
            (ran.returncode, ran.stdout, ran.stderr),
            (
                2,
                '',
                'crashfs-check: r.json: it has findings of --nested, which --merge would drop\n',
            ),
        )

    def test_the_first_failure_of_a_second_crash_ends_a_check_by_fail_fast(self):
        ran = self.nested('--nested', '4', '--fail-fast')
        self.assertEqual((ran.returncode, ran.stderr), (1, ''))
        lines = ran.stdout.splitlines()
        self.assertRegex(lines[0], ': none fails$')
        (tried,) = re.findall('(?m)^  (1|2|3) recover.* of a second crash, 1 fails$', ran.stdout)
        (rest,) = re.findall(
            '(?m)^  --nested: (.) of 4 not tried .stopped by the first', ran.stdout
        )
        self.assertEqual(int(tried) + int(rest), 4)

    def test_a_recovery_that_syncs_first_is_safe(self):
        ran = self.nested('--nested', '2', sync='sync table;')
        self.assertEqual((ran.returncode, ran.stderr), (0, ''), ran.stdout)
        self.assertRegex(
            ran.stdout, '2 recoveries: [0-9]+ different states of a second crash, none fails\n'
        )

    def test_a_state_of_a_recovery_is_left_as_the_second_crash_left_it(self):
        ran = self.nested('--nested', '1')
        name = ran.stdout.partition('e.g. --state ')[2].split()[0]
        ran = self.nested('--state', name)
        self.assertEqual((ran.returncode, ran.stderr), (1, ''))
        self.assertIn('bad: lost: a=2 is not there', ran.stdout)
        (folder,) = os.listdir(self.temporary)
        left = os.path.join(self.temporary, folder, name.partition('/')[2])
        self.assertEqual(os.path.getsize(os.path.join(left, 'log')), 0)
        ran = self.nested('--state', name.partition('/')[0] + '/999')
        self.assertIn('no such state: 999', ran.stderr)

    def test_a_state_that_fails_already_counts_only_with_another_cause(self):
        text = (EXAMPLES / 'store.trace').read_text(encoding='utf-8')
        trace = self.write('lost.trace', text.replace('{"op":"fsync","path":"/log"}\n', ''))
        ran = self.nested('--nested', '3', sync='sync table;', trace=trace)
        self.assertEqual(ran.returncode, 1)
        self.assertRegex(ran.stdout, ' fail.*: [0-9]+ lost\n')
        self.assertRegex(
            ran.stdout, '[0-9]+ recoveries: [0-9]+ different states of a second crash, none fai'
        )


@needs_strace
class RecordedAsTheSession(InRecoveries):
    def check_page(self, version, profile, block, *words):
        """Runs a check of second crashes of REPLACE_PAGE after a session with such a header."""
        trace = self.write('page.trace', page_trace(version, profile, block))
        command = self.write('replace.sh', REPLACE_PAGE, 0o755)
        tool = ('crashfs-check', '--crashfs', FAKE, '--nested', '2')
        return self.run_tool(*tool, *words, trace, '--', command)

    def test_a_recovery_tears_pages_if_the_session_has_smaller_blocks(self):
        ran = self.check_page(3, 'blocks', 512)
        self.assertEqual((ran.returncode, ran.stderr), (1, ''), ran.stdout)
        self.assertIn('  page is torn ', ran.stdout)
        ran = self.check_page(3, 'blocks', 4096)
        self.assertEqual((ran.returncode, ran.stderr), (0, ''), ran.stdout)

    def test_a_recovery_has_the_profiles_of_its_session(self):
        for profile in ('journal', 'blocks'):
            ran = self.check_page(4, profile, 512, '--in', 'journal')
            self.assertEqual((ran.returncode, ran.stderr), (1, ''), ran.stdout)
            self.assertIn('  page is torn ', ran.stdout)
            self.assertNotIn('not tried', ran.stdout)


class HeaderOptions(InFolder):
    def test_the_recorder_gets_what_the_header_of_the_session_has(self):
        for header, options in [
            ('{"trace":1,', '--profile blocks --block 4096'),
            ('{"trace":2,"profile":"ordered",', '--profile ordered --block 4096'),
            ('{"trace":3,"profile":"ordered","block":1024,', '--profile ordered --block 1024'),
            (
                '{"trace":4,"profile":"journal","block":512,',
                '--profile journal --block 512 --trace-version 4',
            ),
        ]:
            trace = self.write('h.trace', header + RIGHTS + '}\n')
            self.assertEqual(header_options(trace), options.split())
            read_options([*options.split(), 'DIR', 'OUT', '--', 'true'])


class Faults(InFolder):
    def fault(self, recorder):
        """Why a recovery isn't recorded by a recorder that is this script."""
        acknowledged = self.write('acknowledged', '')
        checker = SimpleNamespace(
            environment=dict(os.environ),
            acknowledged_lines=SimpleNamespace(write_file=lambda count: acknowledged),
            timeout=PATIENCE,
        )
        planned = SimpleNamespace(trace=str(EXAMPLES / 'store.trace'))
        trials = SimpleNamespace(
            guard=None,
            new_checker=lambda: checker,
            planned=planned,
            options=SimpleNamespace(command=['true']),
        )
        state = SimpleNamespace(number=3, says=0)
        with mock.patch.object(nested_module, 'RECORD', recorder):
            with self.assertRaises(Refused) as refused:
                RecoveryRecorder(trials).run_recorder(state, self.folder, self.path('t.trace'))
        return str(refused.exception)

    def test_a_recorder_without_a_trace_has_a_fault_whatever_was_printed(self):
        killed = (
            'import os, sys; sys.stderr.write({!r}); sys.stderr.flush(); os.kill(os.getpid(), 9)'
        )
        for printed in ('recovering', '', 'recovering: row 1', 'crashfs-record: '):
            ended = self.fault(killed.format(printed))
            self.assertEqual(ended, 'crashfs-record was ended by SIGKILL', printed)
        refuses = "import sys; print('crashfs-record: no room: /d', file=sys.stderr); sys.exit(1)"
        self.assertEqual(self.fault(refuses), 'no room: /d')
        self.assertEqual(self.fault('raise SystemExit(1)'), 'crashfs-record ended with status 1')


class Counted(unittest.TestCase):
    def test_one_is_one(self):
        for recoveries, text in [
            ([Recovery(7, 1)], '1 recovery: 1 different state of a second crash, none fails'),
            (
                [Recovery(7, 1), Recovery(8, 4, 1)],
                '2 recoveries: 5 different states of a second crash, 1 fails',
            ),
            (
                [Recovery(7, 1), Recovery(8, 1_000, 2)],
                '2 recoveries: 1,001 different states of a second crash, 2 fail',
            ),
        ]:
            report = CheckReport(Head('a', '', []))
            report.recoveries = recoveries
            self.assertEqual(ReportText(report).lines()[1:], ['  ' + text])


class Tried(InFolder):
    def test_states_that_were_not_tried_are_not_counted(self):
        plan = read_plan(LISTED)
        trials = SimpleNamespace(
            plan=plan,
            try_all=lambda results: results.outcomes.update({0: Outcome(GOOD), 3: Outcome(GOOD)}),
            planned=SimpleNamespace(trace=self.write('r.trace', '{"trace":3}\n')),
            program=SimpleNamespace(is_unproved=False),
        )
        recovery = SecondCrashTrials(1).try_recovery(trials, plan.state(5), Outcome(GOOD))
        self.assertEqual((recovery.state, recovery.tried_count, recovery.failing_count), (5, 2, 0))

    def test_a_failing_state_of_two_entries_counts_once(self):
        plan = read_plan(LISTED + '{"state":13,"kind":"pick","places":[2],"says":0,"same":8}\n')
        outcomes = {number: Outcome(GOOD) for number in (0, 1, 2, 3, 4, 5, 9, 10)}
        outcomes[8] = LOST
        lines = [line('creat', '/a'), write('/a', 'x'), '\n', rename('/a', '/c')]
        trials = SimpleNamespace(
            plan=plan,
            try_all=lambda results: results.outcomes.update(outcomes),
            try_state=lambda *_: LOST,
            planned=SimpleNamespace(trace=self.write('r.trace', THIRD + ''.join(lines))),
            program=SimpleNamespace(is_unproved=False),
        )
        recovery = SecondCrashTrials(1).try_recovery(trials, plan.state(5), Outcome(GOOD))
        self.assertEqual([len(group.states) for group in recovery.groups], [1, 1])
        self.assertEqual((recovery.tried_count, recovery.failing_count), (9, 1))
        # The first state failed so itself.
        recovery = SecondCrashTrials(1).try_recovery(trials, plan.state(5), LOST)
        self.assertEqual((recovery.tried_count, recovery.failing_count), (9, 0))
        self.assertEqual(recovery.groups, [])

    def test_a_recovery_that_is_not_recorded_has_a_fault_and_counts(self):
        plan, nested = read_plan(LISTED), SecondCrashTrials(2)
        results = Results(plan, {number: Outcome(GOOD) for number in (0, 1, 2, 3)})
        findings = SimpleNamespace(
            plan=plan, results=results, outcomes_by_state=results.outcomes_by_state({})
        )
        fault = Refused('its recording took too long')
        with mock.patch.object(RecoveryRecorder, 'record_recovery', side_effect=fault):
            recoveries = list(nested.try_recoveries(SimpleNamespace(guard=None), findings))
        self.assertEqual([recovery.fault for recovery in recoveries], [str(fault)] * 2)
        self.assertEqual(nested.recoveries_left, 0)

    def test_acknowledged_lines_are_removed_from_a_trace_and_its_file(self):
        lines = [line('creat', '/a'), line('say', text='a'), line('fsync', '/a')]
        trace = self.write('r.trace', THIRD + ''.join(lines))
        text = remove_says(trace)
        self.assertEqual(text, self.read('r.trace'))
        self.assertNotIn('say', text)
        self.assertIn(lines[2], text)


# All features of the tried states of LISTED, if state 2 loses a row.
FEATURES = {
    ('cause', ''),
    ('cause', 'lost: row #'),
    ('last', ''),
    ('last', 'create_dir_entry /a line #'),
    ('last', 'change_file_size /a b'),
    ('last', 'write_block /a b'),
    ('last', 'move_dir_entry /a b'),
    ('last', 'say '),
}


class Chosen(unittest.TestCase):
    def test_a_state_has_its_cause_and_its_last_operation_as_features(self):
        plan = read_plan(LISTED)
        outcomes = {0: Outcome(GOOD), 3: Outcome(BAD, 'lost: row 17'), 8: Outcome(GOOD)}
        findings = SimpleNamespace(plan=plan, outcomes_by_state=outcomes)
        for number, cause, last in (
            (0, '', ''),
            (3, 'lost: row #', 'write_block /a b'),
            (8, '', 'move_dir_entry /a b'),
        ):
            features = features_of(findings, plan.state(number))
            self.assertEqual(features, {('cause', cause), ('last', last)})

    def test_each_cause_and_each_last_operation_is_tried_before_others(self):
        plan = read_plan(LISTED)
        outcomes = {number: Outcome(GOOD) for number in (0, 1, 2, 3, 4, 5, 8, 9, 10)}
        outcomes[2] = Outcome(BAD, 'lost: row 1')
        results = Results(plan, outcomes)
        findings = SimpleNamespace(
            plan=plan, results=results, outcomes_by_state=results.outcomes_by_state({})
        )
        for count in (1, 2, 5, 6, 8, 9, 20):
            nested = SecondCrashTrials(count)
            chosen = [state.number for state in nested.choose_states(findings)]
            self.assertEqual(len(chosen), len(set(chosen)))
            self.assertEqual(len(chosen), min(count, 9))
            if count >= 6:
                self.assertEqual(nested.seen_features, FEATURES)
            if count == 1:
                self.assertEqual(chosen, [5])
            if count == 8:
                # Of 8, 9 and 10, which have no new features, every second one.
                self.assertEqual(chosen, [5, 2, 0, 1, 3, 4, 8, 10])


if __name__ == '__main__':
    unittest.main()
