"""Acknowledgements by lines and by writes, of recorded programs: none is held without a word."""

import os
import shutil
import subprocess
import sys
import unittest

from crashfs_tools.common.trace import Say
from crashfs_tools.common.trace_read import read_trace

from .support import FAKE, TOOLS, InFolder, needed, needs_strace, needs_version_3, short

SERVER = TOOLS / 'tests' / 'data' / 'servers' / 'binary.go'
CHECK = """#!/bin/sh
test "$(../server check)" -ge "$CRASHFS_SAYS" || { echo 'lost: an acknowledged row'; exit 1; }
"""
# Stores three rows: prints something before each is synced, and what the first word says after it.
DOTS = """
import os, sys
f = os.open('log', os.O_CREAT | os.O_WRONLY, 0o644)
d = os.open('.', os.O_RDONLY)
os.fsync(d)
before, after, end = (word.encode().replace(b'N', b'\\n') for word in sys.argv[1:4])
for i in range(3):
    os.write(f, b'r%d;' % i)
    os.write(1, before)
    os.fsync(f)
    os.write(1, after)
os.write(1, end)
"""
HELD = 'standard output: its last text has no line feed, so it counts from the end, but files were'
SEVERAL = 'standard output: one line is of several writes, and counts from the last, but files were'

needs_go = needed(shutil.which('go') is not None, 'no Go compiler is there')


class InStores(InFolder):
    def setUp(self):
        super().setUp()
        os.umask(0o022)
        os.mkdir(self.path('d'))

    def record(self, *words, output=None):
        return self.run_tool('crashfs-record', *words, output=output)

    def texts(self):
        operations = read_trace(self.read('out.trace')).operations
        return [one.text for one in operations if isinstance(one, Say)]

    def operations(self):
        return [short(one) for one in read_trace(self.read('out.trace')).operations]


@needs_strace
class OfPrograms(InStores):
    def dots(self, before, after, end, *options):
        if os.path.exists(self.path('d', 'log')):
            os.unlink(self.path('d', 'log'))
        script = self.write('dots.py', DOTS)
        command = [sys.executable, '-S', script, before, after, end]
        return self.record(*options, 'd', 'out.trace', '--', *command)

    def test_text_without_a_line_feed_is_not_held_without_a_word(self):
        for before, after, end, told in [
            ('.', '', '', HELD),
            ('.', '', 'N', SEVERAL),
            ('r is ', 'storedN', '', None),
            ('', 'storedN', 'done', None),
        ]:
            with self.subTest((before, after, end)):
                ran = self.dots(before, after, end)
                self.assertEqual(ran.returncode, 3 if told else 0, ran.stderr)
                self.assertIn(told or '', ran.stderr)
                self.assertEqual('--say-each write' in ran.stderr, told is not None)
                self.assertEqual(self.dots(before, after, end, '--no-say').returncode, 0)

    def test_each_write_counts_if_that_is_asked_for(self):
        ran = self.dots('.', '', '', '--say-each', 'write')
        self.assertEqual(ran.returncode, 0, ran.stderr)
        self.assertIn('3 acknowledged lines (standard output)', ran.stderr)
        wanted = ['fsync /']
        for i in range(3):
            wanted += [f'write /log {3 * i} r{i};', 'say .', 'fsync /log']
        self.assertEqual(self.operations(), ['creat /log', *wanted])

    def test_a_descriptor_that_COMMAND_inherits_or_duplicates(self):
        record = str(TOOLS / 'crashfs-record')
        script = f'{sys.executable} -S {record} --say-fd 5 d out.trace -- sh -c "echo 1 >f; {{}}"'
        for line, name in [
            ('exec 5>out; ' + script.format('echo a >&5'), 'descriptor 5'),
            (script.format('exec 5>/dev/null; echo a >&5; echo b 2>/dev/null'), 'descriptor 5'),
            (script.format('echo no; exec 5>&1; echo a >&5'), 'standard output'),
        ]:
            with self.subTest(line):
                ran = subprocess.run(
                    ['sh', '-c', line],
                    cwd=self.folder,
                    stderr=subprocess.PIPE,
                    text=True,
                    stdout=subprocess.PIPE,
                    check=False,
                )
                self.assertEqual(ran.returncode, 0, ran.stderr)
                self.assertIn(f'1 acknowledged line ({name})', ran.stderr)
        self.assertEqual(ran.stdout, 'no\na\n')
        self.assertEqual(self.read('out'), 'a\n')

    def test_a_descriptor_is_taken_by_its_number(self):
        for number in ('03', '\u0663'):
            ran = self.record(
                *('--say-fd', number, 'd', 'out.trace', '--', 'sh', '-c'),
                'exec 3>/dev/null; echo 1 >f; echo a >&3',
            )
            self.assertEqual(ran.returncode, 0, ran.stderr)
            self.assertIn('1 acknowledged line (descriptor 3)', ran.stderr)

    def test_what_is_no_text_is_shown_by_escapes(self):
        ran = self.record(
            '--say-each',
            'write',
            'd',
            'out.trace',
            '--',
            'sh',
            '-c',
            r"echo 1 >f; printf '\200a\n\r\nb\r\n'; printf '%2000d' 1",
            output='/dev/null',
        )
        self.assertEqual(ran.returncode, 4, ran.stderr)
        self.assertIn('standard output: an acknowledgement is cut at 1,024 bytes', ran.stderr)
        self.assertEqual(self.texts(), [r'\x80a\n\r\nb', ' ' * 1024])


@needs_strace
@needs_version_3
@needs_go
class OfBinaryProtocols(InStores):
    def setUp(self):
        super().setUp()
        environment = {**os.environ, 'GOCACHE': self.path('tmp', 'go'), 'GO111MODULE': 'off'}
        subprocess.run(
            ['go', 'build', '-o', self.path('server'), str(SERVER)], env=environment, check=True
        )
        shutil.rmtree(self.path('tmp', 'go'))

    def check(self, way):
        """The status of a check of a session, whose answers are acknowledged."""
        ran = self.record('--say-fd', 'socket', 'd', 'out.trace', '--', self.path('server'), way)
        self.assertEqual(ran.returncode, 0, ran.stderr)
        self.assertEqual(self.texts(), ['\0\0\0\2OK'] * 3)
        shutil.rmtree(self.path('d'))
        os.mkdir(self.path('d'))
        check = self.write('check.sh', CHECK.replace('..', self.folder), 0o755)
        return self.run_tool('crashfs-check', '--crashfs', FAKE, 'out.trace', '--', check)

    def test_a_server_that_answers_too_early_is_found(self):
        ran = self.check('early')
        self.assertEqual(ran.returncode, 1, ran.stdout + ran.stderr)
        self.assertIn('lost: an acknowledged row', ran.stdout)

    def test_a_server_that_answers_after_the_sync_is_good(self):
        ran = self.check('right')
        self.assertEqual(ran.returncode, 0, ran.stdout + ran.stderr)


if __name__ == '__main__':
    unittest.main()
