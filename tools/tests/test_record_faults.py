"""What goes wrong in a recording: one line says it, and whether a trace is written."""

import errno
import fcntl
import os
import resource
import signal
import subprocess
import sys
import tempfile
import time
import unittest
from unittest import mock

from crashfs_tools.common import limits, own_faults
from crashfs_tools.common.signals import Stopped
from crashfs_tools.recorder import main
from crashfs_tools.recorder.log_stream import LogStream, PipeLines
from crashfs_tools.recorder.mapped_files import MappedFiles
from crashfs_tools.recorder.stopped_processes import is_stopped
from crashfs_tools.recorder.strace_run import StraceRun
from crashfs_tools.common.trace import Start

from .support import (
    FAKE,
    PATIENCE,
    TOOLS,
    InFolder,
    as_strace,
    needs_strace,
    needs_version_3,
    recording_of,
)
from .test_record_command import InRecordings

RECORD = str(TOOLS / 'crashfs-record')


class WithoutStrace(InRecordings):
    """Logs of files, and what is no log."""

    def converted(self, *lines):
        self.write('log', ''.join(as_strace(line) + '\n' for line in lines))
        return self.run_tool('crashfs-record', '--no-say', '--from-log', 'log', 'd', 'out.trace')

    def test_a_log_that_is_none_is_refused_with_its_line(self):
        directory = self.path('d')
        begin = f'7 openat(AT_FDCWD<{directory}>, "a", O_RDWR|O_CREAT, 0666) = 3<{directory}/a>'
        for bad in [
            '7 chmod("a", 0x1zz) = 0',
            '7 chmod("a", 09) = 0',
            '7 umask(zz) = 0',
            f'7 ftruncate(3<{directory}/a>, many) = 0',
            '7 fsync(3<\\x2f\\x6>) = 0',
            f'7 openat(AT_FDCWD<{directory}>, "a", O_RDWR) = 3<\\x2fé>',
            '7 mkdir("s") = 0',
        ]:
            with self.subTest(bad):
                ran = self.converted(begin, bad)
                self.assertEqual((ran.returncode, ran.stdout), (1, ''), ran.stderr)
                self.assertRegex(
                    ran.stderr,
                    '^crashfs-record: the log is not as strace -f -y -xx writes it, in line 2\n$',
                )
                self.assertFalse(os.path.exists(self.path('out.trace')))

    def test_a_log_whose_last_change_is_before_the_start_is_converted(self):
        log = [
            f'7 unlink("{self.path("d")}/old") = 0',
            '7 write(1<pipe:[7]>, "up\n", 3) = 3',
            '7 +++ exited with 0 +++',
        ]
        self.write('log', ''.join(as_strace(line) + '\n' for line in log))
        words = ('--no-say', '--begin-after', 'up', '--from-log', 'log')
        ran = self.run_tool('crashfs-record', *words, 'd', 'out.trace')
        self.assertEqual(ran.returncode, 0, ran.stderr)
        self.assertEqual(len(self.read('out.trace').splitlines()), 1)

    def fails_in(self, function, error, *words):
        """The status and what is printed if a function fails by a fault of ours."""
        with mock.patch(function, side_effect=error), mock.patch('sys.stderr') as shown:
            with mock.patch.object(main, 'raise_on_stop_signals'):
                status = main.main(['--no-say', '--from-log', self.path('log'), *words])
        return status, ''.join(call.args[0] for call in shown.write.call_args_list)

    def test_a_fault_of_its_own_is_one_line_and_no_bad_log(self):
        directory = self.path('d')
        log = f'7 unlink("{directory}/old") = 0\n7 +++ exited with 0 +++\n'
        self.write('log', ''.join(as_strace(line) + '\n' for line in log.split('\n')))
        words = [directory, self.path('out.trace')]
        place = 'crashfs_tools.recorder.calls.names.remove_name'
        status, shown = self.fails_in(place, KeyError('ours'), *words)
        self.assertEqual(
            (status, shown.strip()),
            (
                1,
                "crashfs-record: internal error: KeyError: 'ours'; no trace is written "
                '(CRASHFS_TRACEBACK=1 shows where)',
            ),
        )
        with mock.patch.dict(os.environ, {own_faults.TRACEBACK: '1'}):
            status, shown = self.fails_in(place, KeyError('ours'), *words)
        self.assertIn('Traceback', shown)
        status, shown = self.fails_in(place, OSError(24, 'Too many open files'), *words)
        self.assertIn('a pipe can not be opened: Too many open files; no trace is', shown)
        place = 'crashfs_tools.recorder.summary.summary_line'
        for error, told in [
            (RecursionError('deep'), 'internal error: RecursionError: deep; the trace is'),
            (OSError(5, 'Input/output error', 'x'), 'x: Input/output error; the trace is written'),
            (OSError(11, 'No room'), 'a process can not be started: No room; the trace is written'),
            (OSError(5, 'Input/output error'), f'{words[1]}: Input/output error; the trace is'),
            (main.Refused('--crashfs x: gone'), '--crashfs x: gone; the trace is written'),
        ]:
            status, shown = self.fails_in(place, error, *words)
            self.assertEqual(status, 3)
            self.assertIn(f'crashfs-record: {told}', shown)

    def test_a_stop_at_the_end_is_reported_as_one(self):
        directory = self.path('d')
        self.write('log', as_strace(f'7 unlink("{directory}/old") = 0\n7 +++ exited with 0 +++\n'))
        place = 'crashfs_tools.recorder.summary.summary_line'
        for number in (signal.SIGINT, signal.SIGTERM):
            status, shown = self.fails_in(place, Stopped(number), directory, self.path('out.trace'))
            self.assertEqual(status, 128 + number)
            self.assertIn(
                f'crashfs-record: stopped by {number.name}; the trace is written\n', shown
            )
            self.assertTrue(os.path.exists(self.path('out.trace')))

    def test_a_directory_of_too_many_files_is_not_whole(self):
        with mock.patch.object(limits, 'RECORDS', 3):
            start = [Start(f'/{name}', 'u', 'u', 0o644, b'') for name in 'abc']
            log = ['1 unlink("a") = 0', '1 truncate("c", 9) = 0']
            recording = recording_of(log, start)
        self.assertEqual(len(recording.trace.start), 2)
        self.assertEqual(len(recording.trace.operations), 1)
        (told,) = map(str, list(recording.troubles.values()))
        self.assertEqual(
            told,
            '/: the start tree leaves out 1 of its files and directories: a trace has 2 at most',
        )
        self.assertEqual(recording.differing_paths, {'/c'})

    def test_closed_streams_are_opened(self):
        for closed in ('>&-', '2>&-', '<&- >&- 2>&-'):
            with self.subTest(closed):
                line = f'{sys.executable} -S {RECORD} --help {closed}'
                ran = subprocess.run(['sh', '-c', line], check=False, capture_output=True)
                self.assertEqual(ran.returncode, 0)


class Copies(InFolder):
    """Copies of mapped files that can't be read, or not by their path."""

    def test_an_unlinked_file_is_not_taken_for_the_one_that_has_its_path(self):
        path = self.write('file', 'old')
        with open(path, encoding='ascii') as file:
            os.unlink(path)
            self.write('file', 'new')
            shown = f'{file.fileno()}<{path}>(deleted)'
            line = as_strace(
                f'{os.getpid()} mmap(NULL, 9, PROT_READ, MAP_SHARED, {shown}, 0) = 0x7'
            )
            mapped = MappedFiles(self.folder, lambda path: False)
            mapped.open_mapped_file(line, 1)
            mapped.make_last_copy(2)
        self.assertEqual(mapped.file_copies.copies[0].bytes_by_number, {0: b'old'})

    def test_a_copy_that_fails_leaves_the_newest_bytes(self):
        mapped = MappedFiles(self.folder, lambda path: False)
        for line_number, name in enumerate(('a', 'b')):
            path = self.write(name, name)
            mapped.hold_open(os.open(path, os.O_RDONLY), line_number)
        os.close(mapped.descriptors[1])
        with self.assertRaises(OSError):
            mapped.copy_changed_files(2, 1, is_alone=True)
        os.close(mapped.descriptors[0])
        self.assertEqual((mapped.newest_bytes, mapped.file_copies.copies), ({}, []))

    def test_a_copy_that_fails_is_raised_at_the_end_and_command_continues(self):
        mapped = mock.Mock()
        mapped.copy_changed_files.side_effect = OSError(5, 'Input/output error', 'f')
        child = subprocess.Popen(['sleep', str(PATIENCE)])
        self.addCleanup(child.wait)
        self.addCleanup(child.kill)
        stream = LogStream(self.folder, mapped)
        stream.create_files(None)
        stream.start()
        with open(stream.pipe, 'w', encoding='ascii') as pipe:
            child.send_signal(signal.SIGSTOP)
            while not is_stopped(child.pid):
                time.sleep(0.001)
            pipe.write(f'{child.pid} --- stopped by SIGSTOP ---\n')
        with self.assertRaisesRegex(OSError, 'Input/output error'):
            stream.finish()
        self.assertFalse(is_stopped(child.pid))
        mapped.make_last_copy.assert_called_once_with(1)


# The lowest number of a descriptor that select() doesn't take.
TOO_HIGH = 1024


class Descriptors(InFolder):
    def open_high_pipe(self):
        """A new pipe, whose end for reading has a number from TOO_HIGH on."""
        soft, hard = resource.getrlimit(resource.RLIMIT_NOFILE)
        if soft != resource.RLIM_INFINITY and soft < 2 * TOO_HIGH:
            if hard != resource.RLIM_INFINITY and hard < 2 * TOO_HIGH:
                self.skipTest('no descriptor may have so high a number')
            resource.setrlimit(resource.RLIMIT_NOFILE, (2 * TOO_HIGH, hard))
            self.addCleanup(resource.setrlimit, resource.RLIMIT_NOFILE, (soft, hard))
        low, writing = os.pipe()
        reading = fcntl.fcntl(low, fcntl.F_DUPFD_CLOEXEC, TOO_HIGH)
        os.close(low)
        for file in (open(reading, 'rb', buffering=0), open(writing, 'wb', buffering=0)):
            self.addCleanup(file.close)
            yield file

    def test_a_log_whose_pipe_has_a_high_number_is_read(self):
        reading, writing = self.open_high_pipe()
        lines = PipeLines(reading.fileno())
        self.assertIsNone(lines.next_line(0.01))
        self.assertFalse(lines.has_ended)
        writing.write(b'a\n')
        self.assertEqual(lines.next_line(PATIENCE), 'a\n')
        writing.close()
        self.assertEqual(lines.next_line(PATIENCE), '')
        self.assertTrue(lines.has_ended)

    def test_output_whose_pipe_has_a_high_number_is_read(self):
        pipe, output = self.open_high_pipe()
        wakeup_pipe, wakeup = self.open_high_pipe()
        strace = mock.Mock()
        strace.poll.return_value = None
        run = StraceRun([], mock.Mock(), mock.Mock(), mock.Mock())

        def read_output():
            return run.read_output(strace, pipe.fileno(), wakeup_pipe.fileno())

        wakeup.write(b'x')
        self.assertEqual(read_output(), b'')
        output.write(b'a')
        self.assertEqual(read_output(), b'a')
        output.close()
        self.assertIsNone(read_output())

    def test_output_that_can_not_be_written_leaves_no_pipe_open(self):
        reading, writing = os.pipe()
        self.addCleanup(os.close, reading)
        os.write(writing, b'a')
        os.close(writing)
        ends = os.pipe2(os.O_NONBLOCK | os.O_CLOEXEC)
        run = StraceRun([], mock.Mock(), mock.Mock(), mock.Mock())
        with open('/dev/full', 'w', encoding='ascii') as full, mock.patch('sys.stdout', full):
            with mock.patch('os.pipe2', return_value=ends):
                with self.assertRaisesRegex(OSError, 'standard output'):
                    run.copy_output(mock.Mock(), reading)
        for end in ends:
            with self.assertRaises(OSError):
                os.fstat(end)

    def test_a_pipe_that_can_not_be_opened_is_raised_before_the_log_is_awaited(self):
        stream = LogStream(self.folder, None)
        stream.create_files(None)
        fault = OSError(errno.EMFILE, 'Too many open files')
        with mock.patch('os.open', side_effect=fault):
            with self.assertRaisesRegex(OSError, 'Too many open files'):
                stream.start()

    def test_a_log_is_read_whole_however_late_it_begins(self):
        for seconds in (0, 0.2):
            stream = LogStream(tempfile.mkdtemp(dir=self.folder), None)
            stream.create_files(None)
            stream.start()
            time.sleep(seconds)
            with open(stream.pipe, 'w', encoding='ascii') as pipe:
                time.sleep(seconds)
                pipe.write('7 +++ exited with 0 +++\n')
            self.assertEqual(stream.finish().ended_threads, [7])

    def test_a_log_that_nobody_began_is_empty(self):
        stream = LogStream(self.folder, None)
        stream.create_files(None)
        stream.start()
        self.assertEqual(stream.finish().calls, [])


@needs_strace
class WithStrace(InRecordings):
    def test_a_directory_that_is_removed_or_renamed_is_reported(self):
        for script, told in [
            ('rm old; rmdir $PWD', 'the directory itself was removed'),
            ('mv $PWD $PWD.2', 'the directory itself was renamed, or replaced'),
            ('mv $PWD $PWD.3; ln -s $PWD.3 $PWD', 'the directory itself was renamed, or replaced'),
        ]:
            with self.subTest(script):
                ran = self.record(script, '--crashfs', FAKE)
                self.assertEqual(ran.returncode, 3, ran.stderr)
                self.assertIn(f'not in the trace: /: {told}', ran.stderr)
                self.assertNotIn('no trace is written', ran.stderr)
                self.assertTrue(os.path.exists(self.path('out.trace')))
                if not os.path.exists(self.path('d')):
                    os.mkdir(self.path('d'))
                    self.write('d/old', '1\n')

    def write_to_log(self, text):
        """What is printed if COMMAND writes a text into strace's log."""
        self.write('garbage', text)
        self.write('garble', 'echo 1 > f; for log in ../tmp/*/log; do cat ../garbage > $log; done')
        ran = self.record('sh ../garble')
        self.assert_nothing_left()
        return ran.returncode, ran.stderr

    def test_garbage_in_the_log_is_reported(self):
        for text in ('\n7 fsync(3<\\x2>) = 0\n', '\n7 openat(AT_FDCWD, "a", 2) = 3<\\x>\n'):
            status, err = self.write_to_log(text)
            self.assertEqual(status, 1, err)
            self.assertRegex(err, '^crashfs-record: the log is not as strace .*, in line [0-9]+\n$')
        status, err = self.write_to_log('7 chmod("a"\n')
        self.assertEqual(status, 3, err)
        self.assertRegex(err, 'line [0-9]+ of the log is not a whole call, and is left out\n')

    def test_names_that_are_no_text_are_shown_by_escapes(self):
        ran = self.record("printf x > $(printf 'a\\033]0;b\\007\\377')")
        self.assertEqual(ran.returncode, 3)
        self.assertIn('/a\\x1b]0;b\\x07\\xff: ', ran.stderr)

    @needs_version_3
    def test_a_trace_of_a_private_store_is_private(self):
        for umask, mode in [('022', 0o644), ('077', 0o600)]:
            ran = self.record(f'umask {umask}; echo 1 > f; rm f')
            self.assertEqual(ran.returncode, 0, ran.stderr)
            self.assertEqual(os.stat(self.path('out.trace')).st_mode & 0o777, mode)
            os.unlink(self.path('out.trace'))

    def test_modes_that_are_set_by_other_calls(self):
        script = self.write(
            'modes.py',
            """
import ctypes, os, struct
path = os.open('old', os.O_PATH)
os.chmod(f'/proc/self/fd/{path}', 0o600)
os.mkdir('s')
path = os.open('s', os.O_PATH | os.O_DIRECTORY)
os.chmod(f'/proc/self/fd/{path}', 0o711)
with open('f', 'w') as file:
    entries = ((1, 6), (4, 0), (32, 4))
    value = struct.pack('<I', 2) + b''.join(struct.pack('<HHI', *it, 2**32 - 1) for it in entries)
    os.setxattr(file.fileno(), 'system.posix_acl_access', value)
ctypes.CDLL(None).chmod(b'f', 0o100640)
""",
        )
        ran = self.record(f'{sys.executable} -S {script}')
        self.assertEqual(ran.returncode, 0, ran.stderr)
        modes = [line for line in self.operations() if 'chmod' in line]
        self.assertEqual(
            modes,
            [
                '{"op":"chmod","path":"/old","mode":"600"}',
                '{"op":"chmod","path":"/s","mode":"711"}',
                '{"op":"chmod","path":"/f","mode":"604"}',
                '{"op":"chmod","path":"/f","mode":"640"}',
            ],
        )

    def test_a_file_with_the_directory_s_path_is_noted(self):
        self.write('d/start', f'see {self.path("d")}/old')
        script = 'echo $PWD > here; echo ${PWD}2 > other; echo x > x; echo $PWD >> here'
        ran = self.record(script)
        self.assertEqual(ran.returncode, 4, ran.stderr)
        self.assertIn(
            'not in the trace: /start: it has the path of the recorded directory: a recovery that '
            'opens that path reads no crash state, and of 1 path more\n',
            ran.stderr,
        )
        os.unlink(self.path('d', 'start'))
        os.unlink(self.path('d', 'here'))
        self.assertEqual(self.record('echo ${PWD}2 > other').returncode, 0)
        self.assertIn('/here: it has the path', self.record('echo $PWD > here').stderr)
        os.unlink(self.path('d', 'here'))
        self.assertIn('/link: it has the path', self.record('ln -s $PWD/other link').stderr)

    def test_a_name_outside_is_reported_in_a_sentence(self):
        for script, line in [
            ('ln old ../out', '/old: it has a name outside the directory at the end'),
            ('true', '/old: the start tree leaves out that it has a name outside the directory'),
        ]:
            ran = self.record(script)
            self.assertEqual(ran.returncode, 4, ran.stderr)
            self.assertIn(f'crashfs-record: not in the trace: {line}\n', ran.stderr)

    def test_a_file_that_is_too_large_is_one_line(self):
        ran = self.record('truncate -s 2G f')
        self.assertEqual(ran.returncode, 3)
        self.assertEqual(ran.stderr.count('/f: '), 1, ran.stderr)


if __name__ == '__main__':
    unittest.main()
