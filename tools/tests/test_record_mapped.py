"""Recordings of programs that map files, with and without --mapped."""

import os
import subprocess
import sys
import unittest

from .support import TOOLS, needs_strace, needs_version_3
from .test_record_command import InRecordings

STORE_MAPPED = """
import mmap, os
f = os.open('map', os.O_RDWR | os.O_CREAT, 0o600)
os.ftruncate(f, 8192)
m = mmap.mmap(f, 8192)
m[5:7] = b'hi'
m[4096:4097] = b'x'
m.flush()
m[0:1] = b'y'
os.write(1, b'told\\n')
"""

# What is written by vmsplice comes after what is stored before it.
STORE_AND_SPLICE = """
import ctypes, mmap, os
f = os.open('map', os.O_RDWR | os.O_CREAT, 0o600)
os.ftruncate(f, 4096)
m = mmap.mmap(f, 4096)
m[0:1] = b'y'
class Vector(ctypes.Structure):
    _fields_ = [('base', ctypes.c_char_p), ('length', ctypes.c_size_t)]
ctypes.CDLL(None).vmsplice(1, ctypes.byref(Vector(b'told\\n', 5)), 1, 0)
"""

# Each call comes after a store and before the next one.
STORES_AND_CALLS = """
import mmap, os, socket
f = os.open('map', os.O_RDWR | os.O_CREAT, 0o600)
os.ftruncate(f, 4096)
m = mmap.mmap(f, 4096)
old, new = os.open('old', os.O_RDONLY), os.open('new', os.O_RDWR | os.O_CREAT, 0o600)
server = socket.create_server(('127.0.0.1', 0))
client = socket.create_connection(server.getsockname())
connection = server.accept()[0]
for place in range(3):
    m[place : place + 1] = b'y'
    {}
os.fsync(f)
"""
# How long a session may take that would never end if it were stopped at each restart.
SECONDS = 60


@needs_strace
class Mapped(InRecordings):
    @needs_version_3
    def test_stores_through_a_mapping_are_reported_with_mapped(self):
        script = self.write('mapped.py', STORE_MAPPED)
        ran = self.record(f'{sys.executable} {script}', '--mapped')
        self.assertEqual(ran.returncode, 0, ran.stderr)
        self.assertEqual(
            [line.partition(',')[2] for line in self.operations()[1:]],
            [
                '"path":"/map","length":8192}',
                '"path":"/map","offset":5,"text":"hi"}',
                '"path":"/map","offset":4096,"text":"x"}',
                '"path":"/map","offset":0,"length":8192}',
                '"path":"/map","offset":0,"text":"y"}',
                '"text":"told"}',
            ],
        )
        self.assert_nothing_left()

    @needs_version_3
    def test_with_mapped_each_call_that_writes_comes_after_the_stores_before_it(self):
        script = self.write('mapped.py', STORE_AND_SPLICE)
        ran = self.record(f'{sys.executable} {script}', '--mapped')
        self.assertEqual(ran.returncode, 0, ran.stderr)
        self.assertEqual(
            [line.partition(',')[2] for line in self.operations()[2:]],
            ['"path":"/map","offset":0,"text":"y"}', '"text":"told"}'],
        )

    def test_without_mapped_a_mapping_is_a_trouble(self):
        script = self.write('mapped.py', STORE_MAPPED)
        ran = self.record(f'{sys.executable} {script}')
        self.assertEqual(ran.returncode, 3)
        self.assertIn('/map: mapped for writing', ran.stderr)

    def record_calls(self, call: str, *options: str):
        """A recording of STORES_AND_CALLS, which is killed after SECONDS."""
        script = self.write('calls.py', STORES_AND_CALLS.format(call))
        if os.path.exists(self.path('d', 'map')):
            os.remove(self.path('d', 'map'))
            os.remove(self.path('d', 'new'))
        command = f'exec timeout -s KILL {SECONDS} {sys.executable} {script}'
        return self.record_aloud(command, '--mapped', *options)

    def paths(self):
        """Of the writes and the fsync."""
        names = ('"op":"write"', '"op":"fsync"')
        return [line.split('"')[7] for line in self.operations() if line[1:13] in names]

    @needs_version_3
    def test_a_call_that_a_signal_restarts_ends_and_comes_after_the_stores_before_it(self):
        for call in ('os.copy_file_range(old, new, 1, 0, 0)', 'os.sendfile(new, old, 0, 1)'):
            with self.subTest(call):
                ran = self.record_calls(call, '--no-say')
                self.assertEqual(ran.returncode, 0, ran.stderr)
                self.assertEqual(self.paths(), ['/map', '/new'] * 3 + ['/map'])

    @needs_version_3
    def test_what_a_restarted_call_acknowledges_comes_after_the_stores_before_it(self):
        ran = self.record_calls('os.sendfile(connection.fileno(), old, 0, 2)', '--say-fd', 'socket')
        self.assertEqual(ran.returncode, 0, ran.stderr)
        names = [line.split('"')[3] for line in self.operations()]
        self.assertEqual(names[3:], ['write', 'say'] * 3 + ['fsync'])

    @needs_version_3
    def test_a_store_before_a_call_that_is_not_stopped_is_reported(self):
        ran = self.record_calls('os.sendfile(1, old, 0, 2)')
        self.assertEqual((ran.returncode, ran.stdout), (3, '1\n' * 3), ran.stderr)
        self.assertIn('/map: stored through its mapping at about the time of a call', ran.stderr)

    def test_what_is_written_to_a_terminal_is_on_it_and_the_session_ends(self):
        own, terminal = os.openpty()
        self.addCleanup(os.close, own)
        script = f'exec timeout -s KILL {SECONDS} sh -c "echo warned >&2; echo told"'
        words = ['--mapped', 'd', 'out.trace', '--', 'sh', '-c', script]
        ran = subprocess.run(
            [sys.executable, '-S', str(TOOLS / 'crashfs-record'), *words],
            cwd=self.folder,
            stdin=subprocess.DEVNULL,
            stdout=subprocess.PIPE,
            stderr=terminal,
            check=False,
        )
        os.close(terminal)
        shown = os.read(own, 65_536)
        self.assertEqual((ran.returncode, ran.stdout), (0, b'told\n'), shown)
        self.assertIn(b'warned\r\n', shown)


if __name__ == '__main__':
    unittest.main()
