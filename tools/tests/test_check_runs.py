"""How a check begins and ends: COMMAND first where nothing is lost, early ends, and going on."""

import errno
import io
import json
import os
import signal
import unittest
from unittest import mock

from crashfs_tools.checker.running import progress
from crashfs_tools.checker.running.pace import Pace
from crashfs_tools.checker.running.read_results import read_json
from crashfs_tools.checker.running.runner import BAD, GOOD, NO_ANSWER, Outcome

from .support import FAKE, PATIENCE, PROGRESS
from .test_check_command import InStore
from .test_windows import log_of

# Writes down each state that it is run in.
COUNT = 'echo $CRASHFS_STATE >> {0}; '


class InCounted(InStore):
    def counted(self, script):
        return ['sh', '-c', COUNT.format(self.path('ran')) + script]

    def ran(self):
        """The states that COMMAND ran in, and no more in the next look."""
        lines = self.read('ran').split() if os.path.exists(self.path('ran')) else []
        if lines:
            os.unlink(self.path('ran'))
        return list(map(int, lines))


class First(InCounted):
    def refusal(self, command):
        ran = self.check(self.good, command=command)
        self.assertEqual((ran.returncode, ran.stdout), (2, ''), ran.stderr)
        self.assert_nothing_left()
        return ran.stderr.splitlines()

    def test_a_command_that_fails_where_nothing_is_lost_ends_the_check(self):
        lines = self.refusal(self.counted('echo "old: $PWD/x"; test $CRASHFS_STATE != 11'))
        self.assertEqual(
            lines,
            [
                "crashfs-check: COMMAND fails in the tree at the session's end, where nothing is "
                'lost (state 11, says 1): old: ./x',
                'crashfs-check: is COMMAND stricter than the session, or does it look for files '
                'elsewhere?',
                'crashfs-check: or does the store itself lose something when it is opened again, '
                'without a crash?',
                'crashfs-check: did the directory have files of an earlier session when it was '
                'recorded?',
                'crashfs-check: inspect it with --state 11',
            ],
        )
        self.assertEqual(self.ran(), [11])
        lines = self.refusal(self.counted('test $CRASHFS_STATE != 0'))
        self.assertNotIn('opened again', '\n'.join(lines))
        self.assertIn(
            'in the start tree, where nothing is lost (state 0, says 0): status 1', lines[0]
        )
        self.assertEqual(self.ran(), [11, 0])

    def test_what_to_look_at_is_said(self):
        self.write('check.py', '')
        lines = self.refusal(['sh', 'check.py'])
        self.assertIn(f'use {self.path("check.py")}', lines[1])
        self.assertIn('does COMMAND run something', self.refusal(['sh', '-c', 'nosuch'])[1])

    def test_files_of_an_earlier_session_are_asked_for(self):
        rights = '"owner":"u","group":"u","mode":"755"'
        question = 'crashfs-check: did the directory have files of an earlier session when it was '
        for start, is_asked in (
            (f'{{"start":"file","path":"/log",{rights},"bytes":"61"}}\n', True),
            ('', False),
        ):
            header = f'{{"trace":1,{rights}}}\n{start}'
            self.write('old.trace', f'{header}{{"op":"creat","path":"/new",{rights}}}\n')
            for condition, tree in (('-e new', 'start tree'), ('! -e new', "session's end")):
                ran = self.check('old.trace', command=['sh', '-c', f'test {condition}'])
                self.assertEqual((ran.returncode, ran.stdout), (2, ''), ran.stderr)
                self.assertIn(tree, ran.stderr)
                self.assertEqual(f'{question}recorded?' in ran.stderr, is_asked, ran.stderr)
        # Where the cause is known, nothing else is asked.
        self.write('check.py', '')
        self.assertNotIn(question, '\n'.join(self.refusal(['sh', 'check.py'])))

    def test_a_command_without_an_answer_there_is_tried_everywhere(self):
        ran = self.check(
            '--prefixes',
            '--timeout',
            '0.5',
            self.good,
            command=['sh', '-c', 'test $CRASHFS_STATE != 11 || sleep 60'],
        )
        self.assertEqual(ran.returncode, 3, ran.stdout + ran.stderr)


class Stops(InCounted):
    def test_a_stop_has_a_report_and_a_json_that_a_later_check_goes_on_from(self):
        whole = self.check(self.bad)
        command = self.counted(
            f'test -e {self.path("on")} || test $CRASHFS_STATE != 5 || '
            f'sleep {self.long}; exec {self.path("recover.sh")}'
        )
        child = self.start(
            'crashfs-check',
            '--crashfs',
            FAKE,
            '--jobs',
            '1',
            '--timeout',
            '300',
            '--json',
            'r.json',
            self.bad,
            '--',
            *command,
        )
        self.wait_until(
            lambda: '\n5\n' in self.read('ran') if os.path.exists(self.path('ran')) else False,
            'state 5 is begun',
        )
        child.send_signal(signal.SIGTERM)
        out, _ = child.communicate(timeout=PATIENCE)
        self.assertEqual(child.returncode, 143)
        self.assertIn(' (stopped by SIGTERM)\n', out)
        before = self.ran()
        self.write('on', '')
        ran = self.check('--resume', 'r.json', self.bad, command=command)
        self.assertEqual((ran.returncode, ran.stdout), (1, whole.stdout), ran.stderr)
        tried = read_json(self.path('r.json')).windows[0].outcomes
        after = [state for state in self.ran() if state in tried]
        self.assertEqual((before[-1], after), (5, []))
        self.assert_ended()

    def test_a_state_without_an_answer_is_tried_again(self):
        command = self.counted(
            f'test -e {self.path("on")} || test $CRASHFS_STATE != 3 || ' f'sleep {self.long}'
        )
        ran = self.check('--timeout', '2', '--json', 'r.json', self.good, command=command)
        self.assertEqual(ran.returncode, 3)
        silent = [
            state
            for state, one in read_json(self.path('r.json')).windows[0].outcomes.items()
            if one.result == NO_ANSWER
        ]
        self.assertIn(3, silent)
        self.ran()
        self.write('on', '')
        ran = self.check('--resume', 'r.json', self.good, command=command)
        # Then the start tree is tried with all acknowledged lines.
        self.assertEqual((ran.returncode, sorted(self.ran())), (0, sorted([*silent, 0])))

    def test_only_the_same_check_goes_on(self):
        self.check('--json', 'r.json', self.good, command=['true'])
        for words, command in [
            ((self.good,), ['false']),
            ((self.bad,), ['true']),
            (('--quick', self.good), ['true']),
        ]:
            ran = self.check('--resume', 'r.json', *words, command=command)
            self.assertEqual(
                (ran.returncode, ran.stderr),
                (2, 'crashfs-check: --resume: that is a report of another check\n'),
            )
        ran = self.check('--resume', 'none.json', self.good, command=['true'])
        self.assertEqual((ran.returncode, ran.stderr), (0, ''))

    def test_a_time_limit_ends_a_check_with_a_report(self):
        ran = self.check(
            '--time-limit',
            '1',
            '--jobs',
            '1',
            '--json',
            'r.json',
            self.good,
            command=['sh', '-c', f'test $CRASHFS_STATE != 3 || sleep {self.long}'],
        )
        self.assertEqual((ran.returncode, ran.stderr), (3, ''))
        self.assertRegex(
            ran.stdout,
            r': (none of the \d+ tried fails; \d+ not|nothing was) tried '
            r'\(stopped by the time limit\)\n',
        )
        self.assertEqual(json.loads(self.read('r.json'))['stopped'], 'the time limit')
        self.assert_ended()
        self.assert_nothing_left()

    def test_of_several_jobs_one_failure_is_reported_by_fail_fast(self):
        """Each process waits until the others are in a state too, and then all fail at once."""
        command = (
            'case $CRASHFS_STATE in 0|11) exit;; esac; '
            f'touch {self.path("met")}.$CRASHFS_STATE; '
            f'while [ $(ls {self.path("met")}.* | wc -l) -lt 4 ]; do sleep 0.05; done; exit 1'
        )
        ran = self.check(
            '--families', '--fail-fast', '--jobs', '4', self.good, command=['sh', '-c', command]
        )
        self.assertEqual(ran.returncode, 1)
        self.assertRegex(ran.stdout, r': 1 of the [1-4] tried fails: 1 status 1;')

    def test_the_first_failure_ends_a_check_by_fail_fast(self):
        ran = self.check(
            '--families',
            '--fail-fast',
            '--jobs',
            '1',
            self.good,
            command=self.counted('test $CRASHFS_STATE != 3'),
        )
        self.assertEqual((ran.returncode, ran.stderr), (1, ''))
        self.assertIn(
            ': 1 of the 5 tried fails: 1 status 1; 8 not tried (stopped by the first failure)\n',
            ran.stdout,
        )
        # State 3 fails, and is run twice more.
        self.assertEqual(self.ran(), [11, 0, 1, 2, 3, 3, 3])
        ran = self.check('--families', '--fail-fast', self.good, command=['true'])
        self.assertEqual(
            ran.stdout.splitlines()[0].partition(': ')[2],
            '11 micro-operations, 20 states, 13 different: none fails',
        )

    def test_the_first_failure_ends_a_check_that_tries_its_states_in_turns(self):
        command = self.counted('case $CRASHFS_STATE in 0|11) exit;; esac; exit 1')
        ran = self.check('--fail-fast', '--jobs', '1', self.good, command=command)
        self.assertEqual((ran.returncode, ran.stderr), (1, ''))
        self.assertRegex(ran.stdout, r': 1 of the \d tried fails: 1 status 1; \d+ not tried \(')
        self.assertEqual(len(set(self.ran()) - {0, 11}), 1)

    def test_a_reader_that_reads_no_more_is_no_fault(self):
        for words, status in [
            ((self.bad, '--', './recover.sh'), 1),
            (('--help',), 0),
            (('--state', '3', self.bad, '--', 'true'), 0),
        ]:
            reading, writing = os.pipe()
            os.close(reading)
            child = self.start('crashfs-check', '--crashfs', FAKE, *words, output=writing)
            os.close(writing)
            _, err = child.communicate(timeout=PATIENCE)
            self.assertEqual((child.returncode, PROGRESS.sub('', err)), (status, ''))

    def test_the_json_is_there_though_nobody_reads_the_report(self):
        ran = self.run_tool(
            'crashfs-check',
            '--crashfs',
            FAKE,
            '--json',
            'r.json',
            self.bad,
            '--',
            './recover.sh',
            output='/dev/full',
        )
        self.assertEqual(ran.returncode, 3)
        (group,) = json.loads(self.read('r.json'))['groups']
        self.assertEqual(
            (group['states'], group['lines'], group['syncs']),
            ([20, 19, 18], [[13, 15]], {'13': '/'}),
        )
        self.assertEqual(
            (group['good'], group['differences']),
            (
                8,
                [
                    '/log has 0 bytes, in the good state 4 bytes; at byte 0 its end, in the good '
                    'state 613d320a'
                ],
            ),
        )


class Archives(InStore):
    def test_an_archive_that_ends_early_is_reported_with_what_ended_its_program(self):
        """All trees of a small plan are read before the first is tried; of a large one the trees
        that are tried first are shorter, and whole unless the status says more."""
        large = self.write('large.trace', log_of(150))
        for end, told in [
            ('kill $$', 'was ended by SIGTERM'),
            ('exit 5', 'ended with status 5'),
            ('exit 0', 'ended with status 0; what it wrote is no archive: it ends ' 'early'),
        ]:
            for trace, most in ((self.good, 3000), (large, 6000)):
                cut = self.write(
                    'cut',
                    f'#!/bin/sh\ntest $1 = tar || exec {FAKE} "$@"\n'
                    f'{FAKE} "$@" | head -c {most}\n{end}\n',
                    0o755,
                )
                words = ['--crashfs', cut, '--prefixes', trace, '--', 'true']
                ran = self.run_tool('crashfs-check', *words)
                in_the_middle = end == 'exit 0' and trace == large
                self.assertEqual(ran.returncode, 3 if in_the_middle else 2, ran.stdout)
                self.assertEqual('(stopped by a fault)' in ran.stdout, in_the_middle)
                self.assertIn(f'crashfs-check: crashfs tar {told}', ran.stderr)

    def test_a_program_may_write_its_archive_to_the_end(self):
        slow = self.write(
            'slow',
            f'#!/bin/sh\ntest $1 = tar || exec {FAKE} "$@"\n'
            f'{FAKE} "$@"\nsleep 0.1\nhead -c 200000 /dev/zero || exit 9\n',
            0o755,
        )
        ran = self.run_tool(
            'crashfs-check', '--crashfs', slow, '--prefixes', self.good, '--', 'true'
        )
        self.assertEqual((ran.returncode, ran.stderr), (0, ''))


class Progress(unittest.TestCase):
    def test_without_a_terminal_a_line_comes_every_half_minute(self):
        stream, now = io.StringIO(), [0.0]
        shown = progress.Progress(stream, lambda: now[0])
        pace = Pace(100, float('inf'), lambda: now[0])
        for now[0], result in enumerate([GOOD, BAD, NO_ANSWER, *[GOOD] * 62], 1):
            pace.count_outcome(Outcome(result))
            shown.show_pace('', pace)
        shown.end_part(pace)
        self.assertEqual(
            stream.getvalue().splitlines(),
            [
                'crashfs-check: 30 of 100 tried, 1 fail, about 1 minute left',
                'crashfs-check: 60 of 100 tried, 1 fail, about 40 seconds left',
            ],
        )

    def test_the_half_minute_goes_on_through_windows(self):
        stream, now = io.StringIO(), [0.0]
        shown = progress.Progress(stream, lambda: now[0])
        for window in range(4):
            pace = Pace(10, float('inf'), lambda: now[0])
            for now[0] in range(10 * window + 1, 10 * window + 11):
                pace.count_outcome(Outcome(GOOD))
                shown.show_pace(f'part {window}: ', pace)
            shown.end_part(pace)
        self.assertEqual(
            stream.getvalue().splitlines(),
            ['crashfs-check: part 2: 10 of 10 tried, 0 fail, about 0 seconds left'],
        )

    def test_a_terminal_has_lines_however_short_the_parts_are(self):
        stream, now = io.StringIO(), [0.0]
        with mock.patch.object(stream, 'isatty', lambda: True):
            shown = progress.Progress(stream, lambda: now[0])
        for part in range(4):
            pace = Pace(1, 0.0, lambda: now[0])
            now[0] += progress.TERMINAL_SECONDS * 0.6
            pace.count_outcome(Outcome(GOOD))
            shown.show_pace(f'part {part}: ', pace)
            shown.end_part(pace)
        counts = '1 of 1 tried, 0 fail, about 0 seconds left'
        lines = [line for line in stream.getvalue().split('\r') if line not in ('', '\033[K')]
        self.assertEqual(lines, [f'part {part}: {counts}\033[K' for part in (1, 3)])

    def test_the_line_of_the_last_moment_is_removed_however_soon_it_comes(self):
        stream, now = io.StringIO(), [0.0]
        with mock.patch.object(stream, 'isatty', lambda: True):
            shown = progress.Progress(stream, lambda: now[0])
        shown.end_part(Pace(0, 0.0))
        for done, now[0] in ((1, 1.0), (2, 1.01), (3, 1.02)):
            shown.show_moments(done, 3)
        self.assertEqual(stream.getvalue(), '\rdisks: 1 of 3 moments\033[K\r\033[K')

    def test_what_can_not_be_shown_does_not_end_a_check(self):
        stream, now = io.StringIO(), [0.0]
        full = mock.Mock(side_effect=OSError(errno.ENOSPC, 'No space left on device'))
        for is_terminal in (True, False):
            with mock.patch.object(stream, 'isatty', lambda: is_terminal):
                shown = progress.Progress(stream, lambda: now[0])
            pace = Pace(3, float('inf'), lambda: now[0])
            pace.count_outcome(Outcome(GOOD))
            with mock.patch.object(stream, 'flush', full):
                for _ in range(2):
                    now[0] += 60
                    shown.show_pace('', pace)
                shown.end_part(pace)
                shown.show_moments(1, 1)
            self.assertEqual(full.call_count, 1)
            full.reset_mock()

    def test_durations_are_rounded(self):
        for seconds, shown in [
            (0.4, '0 seconds'),
            (1.2, '1 second'),
            (59, '59 seconds'),
            (100, '2 minutes'),
            (3600, '1 hour'),
            (9000, '2 hours'),
        ]:
            self.assertEqual(progress.duration_text(seconds), shown)


if __name__ == '__main__':
    unittest.main()
