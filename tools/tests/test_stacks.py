"""--stacks: which of COMMAND's functions made an operation; and the line while COMMAND runs."""

import io
import os
import shutil
import struct
import subprocess
import sys
import tempfile
import time
import unittest
from pathlib import Path
from typing import Dict
from unittest import mock

from crashfs_tools.common.trace import Header, Sync, Trace
from crashfs_tools.common.trace_read import read_trace
from crashfs_tools.recorder import source_lines, stacks, summary
from crashfs_tools.recorder.progress import CallProgress
from crashfs_tools.recorder.strace_run import StraceRun
from crashfs_tools.recorder.strace_log import read_log

from .support import (
    PATIENCE,
    TOOLS,
    InFolder,
    as_strace,
    needed,
    needs_strace,
    needs_version_3,
    short,
)
from .test_odd import needs_compiler

PROGRAMS = TOOLS / 'tests' / 'data' / 'stacks'
# A program's source, how it is compiled, and the note of its write.
IN_C = 'kv.c:4 store < kv.c:8 main'
IN_CC = (
    r'kv.cc:8 kv::Log::append\(std::.*\) < kv.cc:12 kv::put\(kv::Log&, std::.*\) < kv.cc:17 main'
)
IN_RUST = 'kv.rs:8 .*kv::Log.*::append.* < kv.rs:13 kv::main.*'
COMPILED = [
    ('kv.c', ['cc', '-w', '-g', '-O0', '-fPIE', '-pie'], IN_C),
    ('kv.c', ['cc', '-w', '-g', '-O0', '-no-pie'], IN_C),
    ('kv.c', ['clang', '-w', '-g', '-O0', '-fuse-ld=lld'], IN_C),
    ('kv.cc', ['g++', '-w', '-g', '-O0'], IN_CC),
    ('kv.cc', ['g++', '-w', '-g', '-O2'], IN_CC),
    ('kv.rs', ['rustc', '-g', '-O'], IN_RUST),
    # Of a debug build that rust-lld links strace finds no frame by its tables.
    ('kv.rs', ['rustc', '-g', '-C', 'force-frame-pointers=yes'], IN_RUST),
    ('kv.go', ['go', 'build'], r'kv.go:8 main.* < kv.go:14 main.main'),
    (
        'kv.go',
        ['go', 'build', '-gcflags=-l'],
        r'kv.go:8 main.\(\*Log\).append < kv.go:14 main.main',
    ),
]
SCRIPT = """\
import os
def store(f):
    f.write('x')
    f.flush()
def main():
    with open('f', 'w') as f:
        store(f)
    os.rename('f', 'g')
main()
"""


needs_addr2line = needed(shutil.which('addr2line') is not None, 'addr2line is not there')


class Frames(unittest.TestCase):
    def test_the_system_s_frames_are_left_out(self):
        shown = [
            ' > /usr/lib/x86_64-linux-gnu/libc.so.6(__write+0x10) [0xf8350]'[3:],
            '/opt/a b/store(put+0x24) [0x119d]',
            '/opt/a b/store() [0x11bf]',
            '/opt/a b/store(_start+0x21) [0x10b1]',
            '/usr/lib/libkv.so.2(kv_put+0x1) [0x1]',
        ]
        frames = stacks.program_frames(shown)
        wanted = 'put (store) < store+0x11bf < kv_put (libkv.so.2)'
        self.assertEqual(stacks.stack_text(frames, {}), wanted)
        self.assertEqual(stacks.stack_text(4 * frames, {}), wanted)

    def test_the_runtime_s_functions_are_left_out(self):
        for shown, is_own in [
            ('main.(*Log).append', True),
            ('github.com/a/kv.(*Log).append', True),
            ('main.main', True),
            ('os.(*File).Write', False),
            ('internal/poll.(*FD).Write', False),
            ('runtime/internal/syscall.Syscall6', False),
            ('runtime.main', False),
            ('kv::Log::append(std::string const&)', True),
            ('kv::osd.put', True),
            ('std::io::Write::write_all', False),
            ('<std::fs::File as std::io::Write>::write', False),
            ('<kv::Log as std::io::Write>::write', False),
            ('<kv::Log>::append', True),
            ('std::ostream::flush()', False),
            ('_start', False),
        ]:
            self.assertEqual(stacks.is_program_function(shown), is_own, shown)
        (frame,) = stacks.program_frames(['/a/lsm(os.(*File).Write+0x5) [0xc22a9]'])
        self.assertEqual(frame, ('os.(*File).Write', ('/a/lsm', 0xC22A9)))

    def test_a_program_that_is_cut_has_no_parts(self):
        with open(sys.executable, 'rb') as whole, tempfile.NamedTemporaryFile() as part:
            self.assertNotEqual(source_lines.read_segments(whole.name), [])
            for length in (0, 3, 4, 5, 6, 40, 64, 100):
                with self.subTest(length=length):
                    whole.seek(0)
                    part.truncate(0)
                    os.pwrite(part.fileno(), whole.read(length), 0)
                    self.assertEqual(source_lines.read_segments(part.name), [])

    def test_a_program_with_its_table_at_an_offset_of_no_file_has_no_parts(self):
        header = b'\x7fELF\x02\x01'.ljust(32, b'\0') + struct.pack('<Q', 2**64 - 1)
        header = header.ljust(54, b'\0') + struct.pack('<HH', 56, 1)
        with tempfile.NamedTemporaryFile() as program:
            os.pwrite(program.fileno(), header.ljust(64, b'\0'), 0)
            self.assertEqual(source_lines.read_segments(program.name), [])

    def test_only_the_loaded_parts_of_a_program_for_32_bits_are_read(self):
        table = [(6, 9, 9, 9, 9, 9, 9, 9), (1, 0x1000, 0x8049000, 7, 0x200, 0x300, 5, 0x1000)]
        header = b'\x7fELF\x01\x01'.ljust(28, b'\0') + struct.pack('<I', 52)
        header = header.ljust(42, b'\0') + struct.pack('<HH', 32, len(table))
        entries = b''.join(struct.pack('<8I', *entry) for entry in table)
        segments = source_lines.parse_segments(io.BytesIO(header.ljust(52, b'\0') + entries))
        self.assertEqual(segments, [(0x1000, 0x8049000, 0x200)])
        for offset, wanted in ((0x1000, 0x8049000), (0x11FF, 0x80491FF), (0x1200, 0x1200)):
            self.assertEqual(source_lines.address_of_offset(offset, segments), wanted)

    def test_operations_without_a_note_are_counted(self):
        trace = Trace(Header('u', 'u', 0o755), operations=[Sync(), Sync()], notes={0: 'a.c:1 f'})
        (line,) = summary.lines_on_missing_notes(trace)
        self.assertIn('1 operation without a note', line)
        self.assertIn('Rust with -C force-frame-pointers=yes', line)
        trace.notes[1] = 'a.c:2 f'
        self.assertEqual(summary.lines_on_missing_notes(trace), [])

    def test_the_frames_of_a_signal_are_no_call_s(self):
        frame = ' > /opt/store(put+0x24) [0x119d]'
        (call,) = read_log(
            [
                '1 fsync(3) = 0',
                frame,
                '1 --- SIGSTOP {si_signo=SIGSTOP} ---',
                frame,
                '1 --- stopped by SIGSTOP ---',
                frame,
            ]
        ).calls
        self.assertEqual(call.frames, [frame[3:]])

    def test_a_mark_of_the_hook_counts_for_its_thread_until_the_next(self):
        calls = read_log(
            map(
                as_strace,
                [
                    '1 access("/proc/crashfs-frame/a.py:3 put", F_OK) = -1 ENOENT (No such file)',
                    '1 write(3</d/f>, "x", 1) = 1',
                    '2 write(3</d/f>, "x", 1) = 1',
                    ' > /opt/store(put+0x24) [0x119d]',
                    '1 access("/etc/x", F_OK) = 0',
                    '1 fsync(3</d/f>) = 0',
                    '1 execve("/bin/x", ["x"], 0x7ffc /* 3 vars */) = 0',
                    '1 fsync(3</d/f>) = 0',
                ],
            )
        ).calls
        stacks.note_calls(calls, {})
        self.assertEqual(
            [call.note for call in calls],
            ['a.py:3 put', 'a.py:3 put', 'put (store)', 'a.py:3 put', 'a.py:3 put', '', ''],
        )

    def test_the_hook_s_own_copies_of_constants_are_those_of_the_recorder(self):
        hook = Path(stacks.HOOK, 'sitecustomize.py').read_text('utf-8')
        self.assertIn(f'\nPREFIX = {stacks.PREFIX!r}\n', hook)
        self.assertIn(f'\nMOST_LINES = {stacks.MOST_FUNCTIONS}\n', hook)

    def test_no_mark_counts_after_an_exec_by_another_thread(self):
        lines = [
            '1 access("/proc/crashfs-frame/a.py:3 put", F_OK) = -1 ENOENT (No such file)',
            '2 execve("/bin/x", ["x"], 0x7ffc /* 3 vars */ <pid changed to 1 ...>',
            '1 +++ superseded by execve in pid 2 +++',
            '1 <... execve resumed>) = 9',
            '1 fsync(3</d/f>) = 0',
        ]
        calls = read_log(map(as_strace, lines)).calls
        stacks.note_calls(calls, {})
        self.assertEqual([call.note for call in calls], ['a.py:3 put', '', ''])


@needs_strace
@needs_version_3
class Stacks(InFolder):
    def notes(self, *command: str) -> Dict[str, str]:
        """The note of each operation."""
        shutil.rmtree(self.path('d'), ignore_errors=True)
        os.mkdir(self.path('d'))
        options = '--no-say', '--stacks', '--keep-log', 'log'
        ran = self.run_tool('crashfs-record', *options, 'd', 'out.trace', '--', *command)
        self.assertEqual(ran.returncode, 0, ran.stderr)
        self.printed = [line for line in ran.stderr.splitlines() if '--stacks' in line]
        trace = read_trace(self.read('out.trace'))
        return {
            short(one): trace.notes.get(place, '') for place, one in enumerate(trace.operations)
        }

    def test_python_s_lines(self):
        notes = self.notes(sys.executable, self.write('kv.py', SCRIPT))
        self.assertEqual(
            notes,
            {
                'creat /f': 'kv.py:6 main < kv.py:9 <module>',
                'write /f 0 x': 'kv.py:4 store < kv.py:7 main < kv.py:9 <module>',
                'rename /f /g': 'kv.py:8 main < kv.py:9 <module>',
            },
        )

    @needs_addr2line
    def test_the_lines_of_compiled_programs(self):
        environment = {**os.environ, 'GOCACHE': self.path('go'), 'GO111MODULE': 'off'}
        for source, command, wanted in COMPILED:
            if shutil.which(command[0]) is None:
                continue
            with self.subTest(command):
                program = self.path(f'program-{len(os.listdir(self.folder))}')
                line = [*command, '-o', program, str(PROGRAMS / source)]
                subprocess.run(line, check=True, env=environment)
                notes = self.notes(program)
                self.assertRegex(notes['write /f 0 x'], f'^{wanted}')
                self.assertNotIn('no source line', ''.join(self.printed))

    def test_a_script_s_name_may_be_no_text(self):
        notes = self.notes(sys.executable, self.write(os.fsdecode(b'k\xff.py'), SCRIPT))
        self.assertEqual(notes['rename /f /g'], 'k?.py:8 main < k?.py:9 <module>')

    @needs_compiler
    @needs_addr2line
    def test_a_program_may_be_in_a_folder_of_any_name(self):
        for folder in ('\u00e9', os.fsdecode(b'\xff')):
            with self.subTest(folder):
                os.mkdir(self.path(folder))
                program = self.path(folder, 'kv')
                line = ['cc', '-w', '-g', '-O0', '-o', program, str(PROGRAMS / 'kv.c')]
                subprocess.run(line, check=True)
                self.assertRegex(self.notes(program)['write /f 0 x'], f'^{IN_C}')
                log = Path(self.path('log')).read_bytes()
                self.assertIn(b' > ' + os.fsencode(program) + b'(', log)

    @needs_compiler
    def test_what_has_no_source_line_is_reported(self):
        program = self.path('kv')
        line = ['cc', '-w', '-O0', '-s', '-o', program, str(PROGRAMS / 'kv.c')]
        subprocess.run(line, check=True)
        notes = self.notes(program)
        self.assertRegex(notes['write /f 0 x'], '^kv\\+0x')
        (printed,) = self.printed
        self.assertIn(f'--stacks: no source line of {program} is known', printed)


class WhileItRuns(unittest.TestCase):
    @mock.patch('crashfs_tools.recorder.progress.INTERVAL_SECONDS', 0.01)
    def test_a_line_comes_now_and_then(self):
        with mock.patch('sys.stderr', io.StringIO()) as out:
            with CallProgress('crashfs-record', lambda: 1204):
                deadline = time.monotonic() + PATIENCE
                while not out.getvalue() and time.monotonic() < deadline:
                    time.sleep(0.01)
        self.assertTrue(out.getvalue().startswith('crashfs-record: 1,204 calls so far; Ctrl-C'))

    def test_only_a_terminal_gets_lines(self):
        for is_terminal in (True, False):
            with mock.patch('sys.stderr', io.StringIO()) as out:
                out.isatty = lambda: is_terminal
                progress = StraceRun([], mock.Mock(), mock.Mock(), mock.Mock()).progress_lines()
            self.assertEqual(isinstance(progress, CallProgress), is_terminal)


if __name__ == '__main__':
    unittest.main()
