"""Programs with unusual calls, compiled and recorded: the right trace, or what is reported."""

import os
import shutil
import subprocess
import unittest
from typing import List, Sequence

from crashfs_tools.common.trace_read import read_trace

from .support import TOOLS, InFolder, needed, needs_strace, needs_version_3, short

ODD = TOOLS / 'tests' / 'data' / 'odd'
CREAT = ['creat /f']
DIGITS = CREAT + ['write /f 0 0123456789', 'write /f 4 X', 'say done']
# The programs that find an /f of two pages.
WITH_FILE = ('msyncwrong', 'dsyncwrong', 'odsync2', 'mremap1')

# The program, the status, and its operations.
PROGRAMS = [
    (
        'dsyncwrong',
        0,
        ['write /f 0 row', 'write /f 4096 commit', 'fsyncrange /f 4096 6', 'say row is stored'],
    ),
    (
        'odsync2',
        0,
        [
            'write /f 0 row',
            'write /f 6291456 commit',
            'fsyncrange /f 6291456 6',
            'say row is stored',
        ],
    ),
    ('devstdout', 0, CREAT + ['write /f 0 x', 'say by /dev/stdout', 'say by proc', 'say by stdio']),
    ('whiteout', 3, ['creat /a', 'write /a 0 A', 'rename /a /w', 'say two']),
    ('xattr', 4, CREAT + ['write /f 0 x', 'say done']),
    ('preadv2', 0, DIGITS),
    ('sendout', 0, DIGITS),
    ('spliceout', 0, DIGITS),
    (
        'pwritev2',
        0,
        CREAT
        + [
            'write /f 0 one two ',
            'fsyncrange /f 0 8',
            'write /f 100 one two ',
            'fsyncrange /f 100 8',
            'write /f 8 one ',
            'write /f 108 one two ',
            'write /f 50 one two ',
            'write /f 12 one two ',
            'write /f 116 one two ',
            'write /f 124 one ',
            'write /f 128 x',
            'say done',
        ],
    ),
    (
        'unlinked',
        0,
        CREAT
        + [
            'write /f 0 a',
            'unlink /f',
            'creat /f',
            'write /f 0 G',
            'write /f 1 HH',
            'truncate /f 2',
            'chmod /f 600',
            'say done',
        ],
    ),
]
# The same of those that map files, with --mapped.
MAPPED = [
    ('msyncwrong', 0, ['write /f 0 row', 'fsyncrange /f 4096 4096', 'say row is stored']),
    (
        'mmapfork',
        0,
        CREAT + ['truncate /f 8192', 'write /f 0 parent', 'fsyncrange /f 0 8192', 'say stored'],
    ),
    (
        'mapfix',
        0,
        CREAT
        + [
            'creat /g',
            'truncate /f 4096',
            'truncate /g 4096',
            'write /f 0 inf',
            'write /g 0 ing',
            'fsyncrange /g 0 4096',
            'say done',
        ],
    ),
    (
        'mapfailed',
        0,
        CREAT
        + [
            'truncate /f 4096',
            'write /f 0 one',
            'fsyncrange /f 0 4096',
            'say one',
            'write /f 8 two',
            'fsyncrange /f 0 4096',
            'say two',
        ],
    ),
    (
        'mremap1',
        0,
        [
            'truncate /f 1048576',
            'fsync /f',
            'write /f 0 row',
            'fsyncrange /f 0 4096',
            'say row is stored',
        ],
    ),
    (
        'mclosed',
        0,
        [
            'creat /f.tmp',
            'truncate /f.tmp 4096',
            'rename /f.tmp /f',
            'write /f 0 x',
            'fsyncrange /f 0 4096',
            'say one',
            'truncate /f 8192',
            'write /f 5000 y',
            'fsyncrange /f 0 8192',
            'say two',
            'write /f 0 untold',
        ],
    ),
]
# What several threads or processes do at once is right, or it is reported.
AT_ONCE = [
    ('append2', [], 'two calls changed it at once'),
    ('sharedpos', [], 'two calls changed it at once'),
    ('fixedpos', ['--mapped'], 'while other threads or processes ran'),
    ('mapthread2', ['--mapped'], 'while other threads or processes ran'),
]
# What is reported of those that no trace has words for, with status 3 or 4.
REASONS = {
    'whiteout': '/a: RENAME_WHITEOUT left a device',
    'xattr': '/f: its extended attributes change',
}

CALLS_32 = ('-m32', '-O1', '-nostdlib', '-static', '-fno-pic', '-no-pie', '-fno-stack-protector')

needs_compiler = needed(shutil.which('cc') is not None, 'no C compiler is there')


@needs_strace
@needs_version_3
@needs_compiler
class Odd(InFolder):
    def record(
        self, name: str, *options: str, flags: Sequence[str] = ('-pthread',)
    ) -> subprocess.CompletedProcess:
        program = self.path(name)
        built = subprocess.run(
            ['cc', '-w', *flags, '-o', program, str(ODD / f'{name}.c')],
            check=False,
            stderr=subprocess.PIPE,
            text=True,
        )
        if built.returncode != 0:
            self.skipTest(f'{name}.c is not compiled: {built.stderr[:200]}')
        os.mkdir(self.path(name + '.d'))
        if name in WITH_FILE:
            self.write(f'{name}.d/f', 8192 * '\0')
        return self.run_tool('crashfs-record', *options, f'{name}.d', 'out.trace', '--', program)

    def operations(self) -> List[str]:
        return [short(one) for one in read_trace(self.read('out.trace')).operations]

    def check(self, rows, *options: str) -> None:
        os.umask(0o022)
        for name, status, operations in rows:
            with self.subTest(name):
                ran = self.record(name, *options)
                self.assertEqual(ran.returncode, status, ran.stderr)
                self.assertEqual(self.operations(), operations)
                self.assertIn(REASONS.get(name, ''), ran.stderr)
                self.assertIn('its last state equals the directory', ran.stderr)

    def test_each_program_is_recorded(self):
        recorded = {name for name, *_ in [*PROGRAMS, *MAPPED, *AT_ONCE]} | {'calls32'}
        self.assertEqual({path.stem for path in ODD.glob('*.c')}, recorded)

    def test_each_has_its_operations(self):
        self.check(PROGRAMS)

    def test_each_that_maps_files_has_its_operations(self):
        self.check(MAPPED, '--mapped')

    def test_a_32_bit_program_is_followed(self):
        ran = self.record('calls32', '--mapped', flags=CALLS_32)
        if 'could not be started' in ran.stderr:
            self.skipTest('32-bit programs do not run here')
        self.assertEqual(ran.returncode, 0, ran.stderr)
        self.assertEqual(
            self.operations(),
            CREAT
            + [
                'write /f 0 0123456789',
                'write /f 4 X',
                'truncate /f 8',
                'fsyncrange /f 0 4096',
                'write /f 5 YY',
                'say done',
            ],
        )

    def test_what_is_at_once_is_right_or_reported(self):
        for name, options, reported in AT_ONCE:
            with self.subTest(name):
                ran = self.record(name, *options)
                if ran.returncode == 0:
                    self.assertIn('its last state equals the directory', ran.stderr)
                else:
                    self.assertIn(reported, ran.stderr)


if __name__ == '__main__':
    unittest.main()
