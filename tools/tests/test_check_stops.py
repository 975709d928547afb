"""A check that is stopped, and what crashfs-check refuses."""


import os
import signal
import subprocess
import sys
import time
import unittest
from pathlib import Path

from .support import FAKE, PATIENCE, TOOLS
from .test_check_command import InStore


# A signal comes to a command as its guard begins: when the directory has just been made, or when a
# process has just been forked, in the first process.
EARLY = """\
import os, signal, sys, tempfile
from unittest import mock
from crashfs_tools.common.guard import Guard
from crashfs_tools.common.signals import Stopped, raise_on_stop_signals

raise_on_stop_signals()
command = os.getpid()
call = os.fork if sys.argv[1] == 'os.fork' else tempfile.mkdtemp

def call_and_stop(**words):
    made = call(**words)
    if made != 0:
        os.kill(command, signal.Signals[sys.argv[2]])
    return made

try:
    with mock.patch(sys.argv[1], call_and_stop), Guard('crashfs-check'):
        print('begun')
except Stopped as stopped:
    print(stopped, os.listdir(tempfile.gettempdir()))
"""


def stop_early(call, stop, folder):
    """What a command prints that a signal stops as its guard begins, and its status."""
    ran = subprocess.run(
        [sys.executable, '-c', EARLY, call, stop],
        cwd=TOOLS,
        env={**os.environ, 'TMPDIR': folder},
        stdout=subprocess.PIPE,
        text=True,
        check=False,
        timeout=PATIENCE,
    )
    return ran.stdout, ran.returncode


class Stops(InStore):
    def begin(self, *words, ignored=''):
        """Starts a check of which all but the first two commands hang."""
        child = self.start(
            'crashfs-check',
            '--crashfs',
            FAKE,
            *words,
            self.good,
            '--',
            'sh',
            '-c',
            'case $CRASHFS_STATE in 0|11) exit;; esac; '
            f'echo > {self.path("begun")}; sleep {self.long}',
            ignored=ignored,
        )
        self.wait_until(lambda: os.path.exists(self.path('begun')), 'a command has begun')
        return child

    def test_a_stop_leaves_nothing(self):
        for number in (signal.SIGINT, signal.SIGTERM, signal.SIGHUP):
            child = self.begin()
            child.send_signal(number)
            out, err = child.communicate(timeout=PATIENCE)
            self.assertEqual(child.returncode, 128 + number)
            self.assertIn(f' (stopped by {signal.Signals(number).name})\n', out)
            self.assertEqual(err, f'crashfs-check: stopped by {signal.Signals(number).name}\n')
            self.assert_ended()
            self.assert_nothing_left()
            os.unlink(self.path('begun'))

    def test_a_stop_before_the_first_state_leaves_nothing(self):
        for call in ('tempfile.mkdtemp', 'os.fork'):
            ended = stop_early(call, 'SIGTERM', self.temporary)
            self.assertEqual(ended, ('SIGTERM []\n', 0), call)

    def test_a_kill_before_the_first_state_leaves_nothing(self):
        for call in ('tempfile.mkdtemp', 'os.fork'):
            ended = stop_early(call, 'SIGKILL', self.temporary)
            self.assertEqual(ended, ('', -signal.SIGKILL), call)
            self.wait_until(lambda: os.listdir(self.temporary) == [], f'nothing left after {call}')

    def test_a_hangup_that_is_ignored_stops_nothing(self):
        child = self.begin(ignored='HUP')
        child.send_signal(signal.SIGHUP)
        time.sleep(0.5)
        child.send_signal(signal.SIGTERM)
        child.communicate(timeout=PATIENCE)
        self.assertEqual(child.returncode, 128 + signal.SIGTERM)
        self.assert_ended()

    def test_a_process_that_is_killed_ends_the_check(self):
        child = self.begin('--jobs', '2')
        self.wait_until(lambda: len(workers(child.pid)) == 2, 'both processes have begun', child)
        os.kill(workers(child.pid)[0], signal.SIGKILL)
        _, err = child.communicate(timeout=PATIENCE)
        self.assertEqual(
            (child.returncode, err),
            (3, 'crashfs-check: a process of this check was ended by SIGKILL\n'),
        )
        self.assert_ended()
        self.assert_nothing_left()

    def test_a_kill_leaves_nothing(self):
        child = self.begin()
        child.kill()
        child.communicate(timeout=PATIENCE)
        self.wait_until(lambda: os.listdir(self.temporary) == [], 'nothing left')
        self.assert_ended()


class Refuses(InStore):
    def refusal(self, *words, status=2):
        ran = self.run_tool('crashfs-check', *words)
        self.assertEqual((ran.returncode, ran.stdout), (status, ''), ran.stderr)
        self.assert_nothing_left()
        return ran.stderr

    def test_bad_input_is_reported_in_one_line(self):
        broken = self.write('broken.trace', 'nothing\n')
        odd = self.write('odd', 'true\n', 0o755)
        killed = self.write('killed', '#!/bin/sh\nkill -9 $$\n', 0o755)
        listless = self.write(
            'listless.json',
            '{"crashfs-check":1,"trace":"","sha256":"",'
            '"list":[],"command":[],"shard":[1,1],"outcomes":[],"needs":[]}',
        )
        for told, *words in [
            ('none: No such file or directory', '--crashfs', FAKE, 'none', '--', 'true'),
            ('no-such: command not found', '--crashfs', FAKE, self.good, '--', 'no-such'),
            (
                'recover.sh: command not found (use ./recover.sh)',
                '--crashfs',
                FAKE,
                self.good,
                '--',
                'recover.sh',
            ),
            ('--crashfs /none: no such program', '--crashfs', '/none', self.good, '--', 'true'),
            ('no such state: 99', '--crashfs', FAKE, '--state', '99', self.good, '--', 'true'),
            (
                'x/r.json: its directory is not there',
                '--json',
                'x/r.json',
                '--crashfs',
                FAKE,
                self.good,
                '--',
                'true',
            ),
            ('tmp is a directory', '--json', 'tmp', '--crashfs', FAKE, self.good, '--', 'true'),
            (f'{odd}: Exec format error', '--crashfs', FAKE, self.good, '--', odd),
            (f'{odd}: Exec format error', '--crashfs', odd, self.good, '--', 'true'),
            ('crashfs was ended by SIGKILL', '--crashfs', killed, self.good, '--', 'true'),
            ('none.json: No such file or directory', '--merge', 'none.json'),
            (f'{listless} is no report', '--merge', listless),
            (f'{broken} is no report', '--merge', broken),
        ]:
            with self.subTest(told):
                err = self.refusal(*words)
                self.assertTrue(err.startswith(f'crashfs-check: {told}'), err)
                self.assertEqual(err.count('\n'), 1, err)
        self.assertIn('crashfs-check: ', self.refusal('--crashfs', FAKE, broken, '--', 'true'))

    def test_a_trace_of_too_many_levels_is_refused_as_any_other(self):
        for levels in (500, 5_000):
            owner = '[' * levels + ']' * levels
            trace = self.write('nested.trace', f'{{"trace":1,"owner":{owner}}}\n')
            err = self.refusal('--unproved', trace, '--', 'true')
            self.assertRegex(err, r'^crashfs-check: crashfs: .*/nested\.trace:1: .*\n$')

    def test_a_program_without_the_options_is_reported(self):
        old = self.write('old', f'#!/bin/sh\nexec {FAKE} "$@" --old\n', 0o755)
        err = self.refusal('--crashfs', old, self.good, '--', 'true')
        self.assertIn('has no `list --json` yet', err)
        no_tar = self.write(
            'no_tar', f'#!/bin/sh\ntest $1 = tar && set -- --old\n' f'exec {FAKE} "$@"\n', 0o755
        )
        err = self.refusal('--crashfs', no_tar, self.good, '--', 'true')
        self.assertIn('has no `tar --states` yet', err)

    def test_the_command_line_is_refused(self):
        for words in [
            (),
            (self.good, '--'),
            ('--jobs', '0', self.good, '--', 'x'),
            ('--shard', '3/2', self.good, '--', 'x'),
            ('--timeout', 'x', self.good, '--', 'x'),
        ]:
            self.assertIn('error: ', self.refusal(*words))
        self.assertIn(
            'error: put -- before COMMAND (./check.sh)', self.refusal(self.good, './check.sh')
        )

    def test_a_trace_that_the_program_refuses_is_reported_with_its_line(self):
        refusing = self.write(
            'refusing', '#!/bin/sh\necho "crashfs: trace line 3: Exists" >&2\n' 'exit 1\n', 0o755
        )
        err = self.refusal('--crashfs', refusing, self.good, '--', 'true')
        self.assertEqual(err, 'crashfs-check: crashfs: trace line 3: Exists\n')


def workers(check):
    """The processes of a check in which COMMAND is run: its guard has a session of its own."""
    found = Path(f'/proc/{check}/task/{check}/children').read_text(encoding='ascii').split()
    return [one for one in map(int, found) if os.getsid(one) == os.getsid(check)]


if __name__ == '__main__':
    unittest.main()
