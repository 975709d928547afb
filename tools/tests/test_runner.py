"""What COMMAND has when it is run: its lines, its descriptors and its signals."""

import errno
import os
import subprocess
import sys
import threading
import time
import unittest
from unittest import mock

from crashfs_tools.checker.running.recoveries import CommandRecovery, StandardStreams
from crashfs_tools.checker.running.runner import (
    BAD,
    GOOD,
    NO_ANSWER,
    AcknowledgedLines,
    CheckEnded,
    Checker,
    failure_cause,
)
from crashfs_tools.common.command import Refused

from .support import FAKE, PATIENCE, TOOLS, InFolder
from .test_check_command import InStore


FLOOD = 'it printed more than 16 MB'


class InRuns(InFolder):
    def checker(self, script: str, **more) -> Checker:
        os.makedirs(self.path('state'), exist_ok=True)
        says = AcknowledgedLines(['one', 'zwölf', 'three'], self.temporary)
        return Checker(
            CommandRecovery(['/bin/sh', '-c', script]),
            more.pop('timeout', PATIENCE),
            dict(os.environ),
            says,
            **more,
        )

    def run_once(self, script: str, says: int = 0, **more):
        return self.checker(script, **more).run(7, says, self.path('state'))


class Runs(InRuns):
    def test_lines_are_those_of_the_state_in_one_file(self):
        checker = self.checker('printf "%s:" "$CRASHFS_SAYS"; cat | tr "\\n" ,; exit 1')
        for says, lines in [
            (2, 'one,zwölf,'),
            (3, 'one,zwölf,three,'),
            (0, ''),
            (1, 'one,'),
            (1, 'one,'),
        ]:
            self.assertEqual(checker.run(7, says, self.path('state')).cause, f'{says}:{lines}')
        self.assertEqual(len(os.listdir(self.temporary)), 1)

    def test_outcomes_are_of_statuses_and_signals(self):
        for script, result, cause in [
            ('exit 0', GOOD, ''),
            ('exit 7', BAD, 'status 7'),
            ('echo a; echo b >&2; exit 1', BAD, 'b'),
            ('pwd; exit 1', BAD, '.'),
            ('test $CRASHFS_STATE = 7 && kill -9 $$', BAD, 'ended by SIGKILL'),
            ('echo a; kill -40 $$', BAD, 'ended by signal 40: a'),
        ]:
            outcome = self.run_once(script)
            self.assertEqual((outcome.result, outcome.cause), (result, cause), script)
        self.assertEqual(sorted(os.listdir(self.folder)), ['state', 'tmp'])

    def test_a_cause_is_the_last_line_cut_after_the_name_of_a_signal(self):
        for status, printed, cause in [
            (1, 'first\nlast  \n\n', 'last'),
            (1, ' \n', 'status 1'),
            (3, 'a' * 201, 'a' * 200),
            (-9, '', 'ended by SIGKILL'),
            (-11, 'last', 'ended by SIGSEGV: last'),
            (-40, 'was\n', 'ended by signal 40: was'),
        ]:
            self.assertEqual(failure_cause(status, printed), cause)

    def test_what_is_printed_has_a_limit_and_its_end_is_kept(self):
        for script, outcome in [
            ('yes | head -c 16777216; echo; echo end; exit 1', (NO_ANSWER, FLOOD)),
            ('yes', (NO_ANSWER, FLOOD)),
            ('yes | head -c 3000000; echo; echo end; exit 1', (BAD, 'end')),
            ('exec >&- 2>&-; sleep 0.1; exit 7', (BAD, 'status 7')),
        ]:
            with self.subTest(script):
                self.assertEqual(self.run_once(script)[:2], outcome)

    def test_too_much_counts_also_if_the_command_has_exited(self):
        with mock.patch('crashfs_tools.checker.running.output.MOST_BYTES', 4):
            # The command ends while the lines are sent, before anything of it is read.
            for line, outcome in (('end', (BAD, 'end')), ('ends', (NO_ANSWER, FLOOD))):
                script = f'sleep 0.1; echo {line}; exit 1'
                found = self.run_once(script, when_slow=lambda: time.sleep(0.7))
                self.assertEqual(found[:2], outcome)

    def test_without_descriptors_of_processes_it_is_the_same(self):
        with mock.patch('os.pidfd_open', side_effect=OSError):
            self.test_outcomes_are_of_statuses_and_signals()
            self.assertEqual(self.run_once('sleep 60', timeout=0.1).result, NO_ANSWER)

    def test_a_slow_command_is_noticed_once_and_ended_in_time(self):
        for seconds in (0.3, 3, 30, 300):
            slow = []
            outcome = self.run_once(
                'echo begun; sleep 900', timeout=seconds, when_slow=lambda: slow.append(1)
            )
            self.assertEqual((outcome.result, slow), (NO_ANSWER, [1]))
            if outcome.output:  # On a machine that is loaded it may not have begun in time.
                break
        self.assertEqual(outcome.output, 'begun\n')

    def test_the_check_s_end_ends_the_command(self):
        for has_descriptors in (True, False):
            life, alive = os.pipe()
            threading.Timer(0.2, os.close, [alive]).start()
            with mock.patch(
                'os.pidfd_open',
                side_effect=None if has_descriptors else OSError,
                wraps=os.pidfd_open,
            ):
                with self.assertRaises(CheckEnded):
                    self.run_once('sleep 60', life=life)
            os.close(life)

    def test_what_is_gone_is_named_the_program_or_the_file_of_the_lines(self):
        lines = self.write('lines', '')
        for program, path, gone in (
            ('/nowhere/true', lines, '/nowhere/true'),
            ('/bin/true', self.path('none'), self.path('none')),
        ):
            with self.assertRaisesRegex(Refused, f'^{gone}: No such file or directory$'):
                CommandRecovery([program]).start({}, StandardStreams(path, 1))

    def test_a_process_that_there_is_no_room_for_is_no_fault_of_the_command(self):
        for number in (errno.EAGAIN, errno.ENOMEM):
            fault = OSError(number, os.strerror(number), '/bin/true')
            with mock.patch('os.posix_spawn', side_effect=fault):
                with self.assertRaises(OSError) as raised:
                    CommandRecovery(['/bin/true']).start({}, StandardStreams('/none', 1))
            self.assertEqual(raised.exception, fault)

    def test_the_own_directory_stays(self):
        before = os.getcwd()
        self.run_once('exit 0')
        self.assertEqual(os.getcwd(), before)


class Starts(InStore):
    def check_command(self, script: str, more: str = '') -> None:
        """COMMAND is good in a check that a shell started."""
        words = f'exec "$@" -- sh -c \'{script}\' {more}'
        ran = subprocess.run(
            [
                'sh',
                '-c',
                words,
                'sh',
                sys.executable,
                '-S',
                str(TOOLS / 'crashfs-check'),
                '--crashfs',
                FAKE,
                '--prefixes',
                self.good,
            ],
            cwd=self.folder,
            check=False,
            stdout=subprocess.PIPE,
            stderr=subprocess.STDOUT,
            text=True,
            env={**os.environ, **self.environment(None)},
        )
        self.assertEqual(ran.returncode, 0, ran.stdout)

    def test_no_descriptor_of_the_check_is_passed_on(self):
        self.check_command('test ! -e /proc/$$/fd/9', '9> nine')

    def test_a_check_without_standard_input_gives_commands_theirs(self):
        self.check_command('test "$(grep -c stored)" = $CRASHFS_SAYS', '<&-')

    def test_no_file_of_a_check_gets_the_number_of_a_closed_standard_input(self):
        self.check_command('test "$(readlink /proc/$PPID/fd/0)" = /dev/null', '<&-')

    def test_a_command_has_the_signals_that_python_ignores(self):
        self.check_command('(yes; echo $? > status) | head -n 1; test $(cat status) = 141')


if __name__ == '__main__':
    unittest.main()
