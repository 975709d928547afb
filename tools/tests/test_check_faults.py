"""Faults in the middle of a check, and faults that nobody expected: nothing that was tried is lost,
and no status is that of a verdict."""

import errno
import io
import json
import os
import signal
import subprocess
import sys
import tempfile
import unittest
from pathlib import Path
from unittest import mock

from crashfs_tools.checker import main
from crashfs_tools.checker.running.saving import Saver

from .support import FAKE, PATIENCE, PROGRESS, TOOLS
from .test_check_command import InStore

# Runs a check that saves what it knows all the time.
SAVING = """\
import sys
sys.path.insert(0, {tools!r})
from crashfs_tools.checker import checking, main
checking.SAVE_SECONDS = 0
sys.exit(main.main(sys.argv[1:]))
"""

# Runs a check whose time limit passes after the states of the first window, and whose second runs
# end in a fault.
LATE_FAULT = """\
import sys
from unittest import mock
sys.path.insert(0, {tools!r})
from crashfs_tools.checker import checking, main
from crashfs_tools.checker.findings import details
from crashfs_tools.common.command import Refused
from crashfs_tools.common.signals import TimeUp
checking.Check.report_losses = mock.Mock(side_effect=TimeUp)
details.rerun_examples = mock.Mock(side_effect=Refused('a process was killed'))
sys.exit(main.main(sys.argv[1:]))
"""

# Runs a command whose modules find no memory.
NO_MEMORY = """\
import runpy, sys

class Full:
    def find_spec(self, name, *_):
        if name.startswith('crashfs_tools'):
            raise MemoryError

sys.meta_path.insert(0, Full())
runpy.run_path({path!r}, run_name='__main__')
"""


class InTheMiddle(InStore):
    def try_with_fault(self, fault, *words):
        """A check whose COMMAND does something in state 5, and is gone on from."""
        script = f'#!/bin/sh\ntest "$CRASHFS_STATE" = 5 && {{ {fault}; }}\nexec ../../recover.sh\n'
        command = self.write('faulty.sh', script.replace('../..', self.folder), 0o755)
        ran = self.check('--jobs', '1', '--json', 'r.json', *words, self.bad, command=[command])
        self.write('faulty.sh', f'#!/bin/sh\nexec {self.command}\n', 0o755)
        resumed = self.check('--resume', 'r.json', self.bad, command=[command])
        return ran, resumed

    def test_what_was_tried_is_reported_and_a_resumed_check_ends_as_any(self):
        whole = self.check('--jobs', '1', self.bad)
        for fault, line in [
            ('rm "$0"; exit 0', r'/faulty\.sh: No such file or directory\n'),
            ('rm -rf "${PWD%/*}"; exit 0', r'/crashfs-check-\w*/6: No such file or directory\n'),
            ('kill -9 $PPID', r'a process of this check was ended by SIGKILL\n'),
        ]:
            with self.subTest(fault):
                ran, resumed = self.try_with_fault(fault)
                self.assertEqual(ran.returncode, 3, ran.stderr)
                self.assertRegex(ran.stderr, f'^crashfs-check: .*{line}$')
                self.assertIn('(stopped by a fault)', ran.stdout)
                fields = json.loads(self.read('r.json'))
                self.assertEqual(fields['stopped'], 'a fault')
                outcomes = fields['windows'][0]['outcomes']
                # Outcomes that a killed process had not sent yet are tried again.
                self.assertIn('2' if 'PPID' not in fault else '11', outcomes)
                self.assertNotIn('6', outcomes)
                self.assertEqual((resumed.returncode, resumed.stderr), (1, ''))
                self.assertEqual(resumed.stdout, whole.stdout)
                self.assert_nothing_left()

    def test_a_fault_of_second_runs_after_the_time_limit_loses_no_report(self):
        line = [sys.executable, '-S', '-c', LATE_FAULT.format(tools=str(TOOLS)), '--crashfs', FAKE]
        line += ['--jobs', '1', '--timeout', str(PATIENCE), '--nested', '1', '--json', 'r.json']
        ran = subprocess.run(
            [*line, self.bad, '--', self.command],
            cwd=self.folder,
            env={**os.environ, **self.environment(None)},
            stdout=subprocess.PIPE,
            stderr=subprocess.PIPE,
            text=True,
            check=False,
        )
        printed = PROGRESS.sub('', ran.stderr)
        self.assertEqual((ran.returncode, printed), (3, 'crashfs-check: a process was killed\n'))
        self.assertIn(': 3 fail: 3 lost\n', ran.stdout)
        self.assertIn('--nested: 1 of 1 not tried (stopped by the time limit)', ran.stdout)
        self.assertEqual(json.loads(self.read('r.json'))['stopped'], 'the time limit')
        self.assert_nothing_left()

    def test_a_fault_before_the_first_state_is_bad_input(self):
        ran = self.check('--json', 'r.json', self.bad, command=['false'])
        self.assertEqual((ran.returncode, ran.stdout), (2, ''))
        self.assertFalse(os.path.exists(self.path('r.json')))

    def test_a_killed_check_is_gone_on_from(self):
        begun = self.path('begun')
        command = self.write(
            'slow.sh',
            f'#!/bin/sh\ntest "$CRASHFS_STATE" = 9 && echo > {begun} && sleep {self.long}\n'
            f'exec {self.command}\n',
            0o755,
        )
        line = [sys.executable, '-S', '-c', SAVING.format(tools=str(TOOLS)), '--crashfs', FAKE]
        line += ['--jobs', '1', '--json', 'r.json', '--timeout', str(PATIENCE), self.bad, '--']
        with subprocess.Popen(
            [*line, command], cwd=self.folder, env={**os.environ, **self.environment(None)}
        ) as child:
            self.wait_until(lambda: os.path.exists(begun), 'the slow state has begun', child)
            self.wait_until(lambda: '"8":' in self.saved(), 'what came before is saved', child)
            child.send_signal(signal.SIGKILL)
        self.assertEqual(json.loads(self.saved())['stopped'], 'a kill')
        tried = self.path('tried')
        script = f'#!/bin/sh\necho $CRASHFS_STATE >> {tried}\nexec {self.command}\n'
        self.write('slow.sh', script, 0o755)
        resumed = self.check('--quick', '--resume', 'r.json', self.bad, command=[command])
        self.assertEqual(resumed.returncode, 2, resumed.stdout)
        resumed = self.check('--resume', 'r.json', self.bad, command=[command])
        self.assertEqual(resumed.returncode, 1, resumed.stderr)
        again = set(self.read('tried').split())
        self.assertIn('9', again)
        self.assertFalse(again & {'2', '3', '4', '5', '6', '7'}, again)

    def saved(self):
        return self.read('r.json') if os.path.exists(self.path('r.json')) else ''


class Savers(unittest.TestCase):
    def test_a_saver_writes_when_its_time_has_come(self):
        times, written = iter([0, 59, 60, 60, 119]), []
        saver = Saver(lambda: written.append(1), 60, lambda: next(times))
        counts = []
        for _ in range(3):
            saver.save_if_due()
            counts.append(len(written))
        self.assertEqual(counts, [0, 1, 1])

    def test_a_disk_that_is_full_for_a_moment_ends_nothing(self):
        write = mock.Mock(side_effect=[OSError(28, 'No space left on device'), None])
        saver = Saver(write, 0)
        saver.save_if_due()
        saver.save_if_due()
        self.assertEqual(write.call_count, 2)


class OfItsOwn(InStore):
    def run_in_shell(self, script, **environment):
        check = f'{sys.executable} -S {TOOLS}/crashfs-check --crashfs {FAKE}'
        return subprocess.run(
            ['sh', '-c', script.format(check=check, good=self.good, folder=self.folder)],
            cwd=self.folder,
            stdout=subprocess.PIPE,
            stderr=subprocess.PIPE,
            check=False,
            env={**os.environ, **self.environment(None), **environment},
        )

    def assert_line(self, ran, status, line):
        self.assertEqual(ran.returncode, status, ran)
        self.assertRegex(ran.stderr.decode(), f'^crashfs-check: {line}\n$')
        self.assert_nothing_left()

    def test_standard_output_that_is_closed_is_named(self):
        for script in ('{check} {good} -- true >&-', '{check} --help >&-'):
            with self.subTest(script):
                ran = self.run_in_shell(script)
                self.assert_line(ran, 3, 'standard output: Bad file descriptor')

    def test_a_closed_standard_error_takes_no_line_to_standard_output(self):
        ran = self.run_in_shell('{check} none -- true 2>&-')
        self.assertEqual((ran.returncode, ran.stdout, ran.stderr), (2, b'', b''))

    def test_no_locale_refuses_a_report(self):
        self.write('fails.sh', 'test $CRASHFS_STATE = 5 || exit 0; echo "lost: zwölf"; exit 1')
        for environment in ({'PYTHONIOENCODING': 'ascii'}, {'LC_ALL': 'C', 'PYTHONUTF8': '0'}):
            with self.subTest(environment):
                ran = self.run_in_shell(
                    '{check} --prefixes {good} -- sh {folder}/fails.sh', **environment
                )
                self.assertEqual(ran.returncode, 1, ran.stderr)
                self.assertIn('lost: zwölf', ran.stdout.decode())

    def test_names_that_are_not_utf_8_are_shown(self):
        name = b'bad\xff.trace'
        with open(os.path.join(self.folder.encode(), name), 'wb') as file:
            file.write(Path(self.good).read_bytes())
        ran = self.run_in_shell(
            "{check} --prefixes --json r.json \"$(printf 'bad\\377.trace')\" -- true"
        )
        self.assertEqual(ran.returncode, 0, ran.stderr)
        self.assertIn(b'micro-operations', ran.stdout)

    def test_a_trace_may_be_a_pipe_and_no_device(self):
        ran = self.run_in_shell('cat {good} | {check} --prefixes /dev/stdin -- true')
        self.assertEqual((ran.returncode, ran.stderr), (0, b''))
        self.assert_line(self.run_in_shell('{check} /dev/zero -- true'), 2, '/dev/zero is no file')

    def test_a_place_for_temporary_files_is_any_that_may_be_written(self):
        os.mkdir(self.path('here'))
        ran = self.run_in_shell('cd here && {check} --prefixes {good} -- ../recover.sh', TMPDIR='.')
        self.assertEqual((ran.returncode, ran.stderr), (0, b''))
        self.assertEqual(os.listdir(self.path('here')), [])
        ran = self.run_in_shell('{check} --prefixes {good} -- true', TMPDIR='/none')
        self.assert_line(ran, 0, 'TMPDIR=/none can not be written: /.* is used')

    def test_modules_that_find_no_memory_are_a_line_and_no_verdict(self):
        for command, status in (
            ('crashfs-check', 3),
            ('crashfs-campaign', 3),
            ('crashfs-record', 1),
        ):
            script = NO_MEMORY.format(path=str(TOOLS / command))
            ran = subprocess.run(
                [sys.executable, '-c', script],
                stderr=subprocess.PIPE,
                text=True,
                timeout=PATIENCE,
                check=False,
            )
            wanted = (status, f'{command}: out of memory\n')
            self.assertEqual((ran.returncode, ran.stderr), wanted)

    def test_programs_that_lie_are_named(self):
        for lie, line in [
            ("tar) printf 'a/' | dd conv=sync bs=512 2>/dev/null;;", 'what it wrote is no archive'),
            ("list) echo '{\"op\":0}';;", 'crashfs list printed: '),
            ("list) printf '%0200000d' 0 | tr 0 '[';;", 'crashfs list printed: '),
        ]:
            program = self.write(
                'lie', f'#!/bin/sh\ncase $1 in {lie} *) exec {FAKE} "$@";; esac\n', 0o755
            )
            with self.subTest(lie):
                ran = self.run_tool('crashfs-check', '--crashfs', program, self.good, '--', 'true')
                self.assertIn(ran.returncode, (2, 3), ran.stderr)
                self.assertEqual(ran.stderr.count('\n'), 1, ran.stderr)
                self.assertIn(line, ran.stderr[:200])
                self.assertNotIn('Traceback', ran.stderr)

    def test_a_process_or_a_pipe_that_there_is_no_room_for_is_blamed_on_no_file(self):
        temporary = tempfile.gettempdir()
        for number, wanted in [
            (errno.EAGAIN, 'a process can not be started: Resource temporarily unavailable'),
            (errno.ENOMEM, 'a process can not be started: Cannot allocate memory'),
            (errno.EMFILE, 'a pipe can not be opened: Too many open files'),
            (errno.ENOSPC, f'{temporary}: No space left on device'),
        ]:
            for name in (None, '/named'):
                fault = OSError(number, os.strerror(number), name)
                with mock.patch('sys.stderr', io.StringIO()) as printed:
                    main.print_fault(fault)
                line = f'/named: {fault.strerror}' if name else wanted
                self.assertEqual(printed.getvalue(), f'crashfs-check: {line}\n')

    def test_a_fault_is_a_line_and_its_traceback_is_asked_for(self):
        fails = mock.Mock(side_effect=KeyError('a bug\x1b'))
        for variable in ('', '1'):
            read, write = os.pipe()
            with mock.patch.dict(os.environ, CRASHFS_TRACEBACK=variable), mock.patch(
                'sys.stderr', os.fdopen(write, 'w')
            ) as stream, mock.patch.multiple(
                main, carry_out=fails, raise_on_stop_signals=mock.Mock()
            ):
                self.assertEqual(main.main(['t.trace', '--', 'true']), 3)
                stream.close()
            with open(read, encoding='utf-8') as printed:
                lines = printed.read().splitlines()
            self.assertEqual(
                lines[-1],
                "crashfs-check: internal error: KeyError: 'a bug\\x1b' "
                '(CRASHFS_TRACEBACK=1 shows where)',
            )
            self.assertEqual(len(lines) > 1, bool(variable))


if __name__ == '__main__':
    unittest.main()
