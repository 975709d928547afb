"""Command lines that are wrong: each has its lines on standard error and its status."""

import os
import socket
import subprocess
import sys
import unittest
from typing import Dict, List, Tuple

from crashfs_tools import VERSION
from crashfs_tools.common.program import Crashfs

from .support import EXAMPLES, FAKE, PATIENCE, TOOLS, InFolder, needed

TRACE = str(EXAMPLES / 'config' / 'config.trace')
STORE = str(EXAMPLES / 'store.trace')
FOUND = Crashfs.find(None)

needs_program = needed(FOUND is not None, 'crashfs is not built')

# The command line, its status, and how its last line begins after the command's name.
RECORD: List[Tuple[str, int, str]] = [
    ('', 2, 'error: the following arguments are required: DIR, OUT.trace'),
    ('d', 2, 'error: the following arguments are required: OUT.trace'),
    ('d o', 2, 'error: COMMAND is missing: put -- before it'),
    ('d o --', 2, 'error: COMMAND is missing: put -- before it'),
    ('d o true', 2, 'error: put -- before COMMAND (true)'),
    ('d o sqlite3 -bail', 2, 'error: put -- before COMMAND (sqlite3)'),
    ('d o more -- true', 2, 'error: unrecognized arguments: more'),
    ('--bogus d o -- true', 2, 'error: unrecognized arguments: --bogus'),
    ('--block 5 d o -- true', 2, 'error: argument --block: invalid choice: 5 '),
    ('--profile x d o -- true', 2, "error: argument --profile: invalid choice: 'x' "),
    ('--say-fd x d o -- true', 2, 'error: argument --say-fd: x is neither a number nor `socket`'),
    (f'--say-fd {"1" * 4_400} d o -- true', 2, 'error: argument --say-fd: no descriptor has'),
    ('--say-fd \u00b2 d o -- true', 2, 'error: argument --say-fd: \u00b2 is neither a number nor'),
    ('--say-fd 2147483648 d o -- true', 2, 'error: argument --say-fd: no descriptor has a number'),
    (
        f'--begin-after {5000 * "9"} d o -- true',
        2,
        'error: argument --begin-after: no line has a number of 5,000 digits',
    ),
    ('--from-log l d o -- true', 2, 'error: --from-log goes with no COMMAND,'),
    ('--from-log l --mapped d o', 2, 'error: --from-log goes with no COMMAND,'),
    ('none o -- true', 1, 'none is no directory'),
    ('d none/o -- true', 1, 'none/o: its directory is not there'),
    ('d d/o -- true', 1, 'd/o would be in '),
    ('--keep-log - . /dev/null -- true', 1, '- would be in '),
    ('d tmp -- true', 1, 'tmp is a directory'),
    ('d o -- no-such', 1, 'no-such: command not found'),
    ('d o -- ./no-such', 1, './no-such: command not found'),
    ('d o -- /etc/passwd', 1, '/etc/passwd: not executable'),
    ('--crashfs /none d o -- true', 1, '--crashfs /none: no such program'),
    ('--from-log none d o', 1, 'none: No such file or directory'),
]
CHECK: List[Tuple[str, int, str]] = [
    ('', 2, 'error: TRACE is missing'),
    ('-- true', 2, 'error: TRACE is missing'),
    ('TRACE', 2, 'error: COMMAND is missing: put -- before it'),
    ('TRACE --', 2, 'error: COMMAND is missing: put -- before it'),
    ('TRACE ./check.sh', 2, 'error: put -- before COMMAND (./check.sh)'),
    ('TRACE ./check.sh -v', 2, 'error: put -- before COMMAND (./check.sh)'),
    ('TRACE more -- true', 2, 'error: unrecognized arguments: more'),
    ('--bogus TRACE -- true', 2, 'error: unrecognized arguments: --bogus'),
    ('--block 512 TRACE -- true', 2, 'error: --block is an option of crashfs-record'),
    ('TRACE --profile=journal true', 2, 'error: --profile is an option of crashfs-record'),
    ('--jobs 0 TRACE -- true', 2, 'error: argument --jobs: 0 is not a number from 1'),
    ('--shard 3/2 TRACE -- true', 2, 'error: argument --shard: 3/2 is not I/N '),
    ('--timeout x TRACE -- true', 2, 'error: argument --timeout: x is no number of seconds'),
    ('--time-limit 0 TRACE -- true', 2, 'error: argument --time-limit: 0 is no number of seconds'),
    ('--state x TRACE -- true', 2, 'error: argument --state: x is neither N nor N/M'),
    ('--state 3/ TRACE -- true', 2, 'error: argument --state: 3/ is neither N nor N/M'),
    ('--nested 0 TRACE -- true', 2, 'error: argument --nested: 0 is not a number from 1'),
    ('--nested 2 --shard 1/2 TRACE -- true', 2, 'error: --nested goes with no --serve, --shard'),
    ('--crashfs /bin/echo TRACE -- true', 2, 'crashfs picks printed: picks --trace '),
    ('--quick --crashfs /bin/echo TRACE -- true', 2, 'crashfs list printed: list --trace '),
    ('--serve 5640 TRACE -- true', 2, 'error: argument --serve: 5640 is not HOST:PORT'),
    ('--uname ann TRACE -- true', 2, 'error: --uname goes with --serve'),
    ('--state 3 --json r TRACE -- true', 2, 'error: --state writes no report: it goes with no'),
    ('--state 3 --junit r TRACE -- true', 2, 'error: --state writes no report'),
    ('--state 3 --tap r TRACE -- true', 2, 'error: --state writes no report'),
    ('--state 3 --html r TRACE -- true', 2, 'error: --state writes no report'),
    ('--state 3 --resume r TRACE -- true', 2, 'error: --state writes no report'),
    ('--state 3 --disks ext4 TRACE -- true', 2, 'error: --state writes no report'),
    ('--state 3 --merge r', 2, 'error: --state writes no report'),
    ('--merge', 2, 'error: argument --merge: expected at least one argument'),
    ('--merge a -- true', 2, 'error: --merge goes with no COMMAND'),
    ('--merge none', 2, 'none: No such file or directory'),
    ('none -- true', 2, 'none: No such file or directory'),
    ('tmp -- true', 2, 'tmp is no file'),
    ('TRACE -- no-such', 2, 'no-such: command not found'),
    ('TRACE -- /etc/passwd', 2, '/etc/passwd: not executable'),
    ('--json none/r TRACE -- true', 2, 'none/r: its directory is not there'),
    ('--crashfs /none TRACE -- true', 2, '--crashfs /none: no such program'),
    ('--unproved --state 9999 TRACE -- true', 2, 'no such state: 9999 (there are 52)'),
    ('--unproved --in no TRACE -- true', 2, '--in no: the profiles of this trace are blocks, ord'),
    ('--unproved --quick --in no TRACE -- true', 2, '--in no: the profiles of this trace are '),
    ('--unproved --serve h:1 --in no TRACE -- true', 2, '--in no: the profiles of this trace are '),
    ('--unproved --resume TRACE TRACE -- true', 2, f'{TRACE} is no report of crashfs-check'),
    ('--crashfs ./killed TRACE -- true', 2, 'crashfs tar was ended by SIGKILL'),
]

HEADER = '{"trace":1,"owner":"u","group":"u","mode":"755"}\n'
CREAT = '{"op":"creat","path":"/%s","owner":"u","group":"u","mode":"644"}\n'
# Files that the rows below name.
FILES: Dict[str, str] = {
    'alone': '[0]\n[5]\n',
    'bom': '\ufeff' + HEADER,
    'crlf': HEADER.replace('\n', '\r\n'),
    'empty': '',
    'far': '[99]\n',
    'key': HEADER.replace('}', ',"comment":"x"}'),
    'kind': HEADER + '{"start":"pipe","path":"/a"}\n',
    'list': '[1]\n',
    'long-mode': HEADER.replace('755', '0755'),
    'many': HEADER + ''.join(CREAT % name for name in range(200)),
    'mode': HEADER.replace('"755"', '755'),
    'odd': HEADER + CREAT % 'a' + '{"op":"write","path":"/a","offset":0,"bytes":"686"}\n',
    'pick': '[1,0]\n',
    'text': 'hello\n',
    'users': '0:u:u:\n',
    'users-crlf': '0:u:u:\n1:v::\r\n',
    'version': HEADER.replace('1', '5'),
    'word': HEADER + '{"op":"wirte","path":"/a"}\n',
}
SERVE = 'serve STORE --users users --workers 1 --connections 1 --listen'
# The command line of `crashfs`, its status, and how each of its lines begins.
PROGRAM: List[Tuple[str, int, List[str]]] = [
    (f'{SERVE} localhost', 1, ['cannot listen', 'localhost: invalid socket address']),
    (f'{SERVE} 5640', 1, ['cannot listen', '5640: invalid socket address']),
    (
        'serve STORE --users users-crlf --listen 5640',
        1,
        [
            'users line 2 ends with a carriage return, which belongs to its last field',
            'cannot listen',
            '5640: invalid socket address',
        ],
    ),
    (f'{SERVE} localhost:99999', 1, ['cannot listen', 'localhost:99999: invalid port value']),
    (f'{SERVE} unix:/tmp/x', 1, ['cannot listen', 'unix:/tmp/x: invalid port value']),
    (
        f'{SERVE} 192.0.2.1:5640',
        1,
        ['cannot listen', '192.0.2.1:5640: Cannot assign requested address'],
    ),
    (f'{SERVE} nosuch.invalid:5640', 1, ['cannot listen', 'nosuch.invalid:5640: ']),
    (f'{SERVE} 127.0.0.1:PORT', 1, ['cannot listen', '127.0.0.1:PORT: Address already in use']),
    ('list none', 1, ['none: cannot read', 'none: No such file or directory']),
    ('list tmp', 1, ['tmp: cannot read', 'tmp: Is a directory']),
    ('list STORE --picks none', 1, ['none: cannot read', 'none: No such file or directory']),
    ('list empty', 1, ['trace line 1: Syntax', 'empty:1: the file has no line']),
    ('list bom', 1, ['trace line 1: Syntax', 'bom:1: it starts with a byte order mark']),
    ('list version', 1, ['trace line 1: Syntax', 'version:1: version 5 is not known (1, 2, 3, 4)']),
    (
        'list long-mode',
        1,
        ['trace line 1: Syntax', 'long-mode:1: mode "0755" is not three octal digits'],
    ),
    ('list mode', 1, ['trace line 1: Syntax', 'mode:1: mode 755 is not three octal digits']),
    ('list key', 1, ['trace line 1: Syntax', 'key:1: unknown key "comment"']),
    ('list odd', 1, ['trace line 3: Syntax', 'odd:3: bytes has an odd number of digits']),
    ('list list', 1, ['trace line 1: Syntax', 'list:1: it is no JSON object']),
    ('list text', 1, ['trace line 1: Syntax', 'text:1: it is no JSON object']),
    ('list word', 1, ['trace line 2: UnknownOp', 'word:2: unknown op "wirte"']),
    ('list kind', 1, ['trace line 2: UnknownOp', 'kind:2: unknown start "pipe"']),
    ('tar STORE --state 13', 1, ['no such state', 'there are 12 states; with --holes 19']),
    ('tar STORE --states 0,13-14 --holes', 0, []),
    ('tar STORE --states 19 --holes', 1, ['no such state', 'there are 19 states']),
    (
        'list many --holes',
        1,
        [
            'plan too large',
            'a plan has at most 16384 states: this trace has 201 '
            'without holes, and 19900 holes; ',
        ],
    ),
    ('list STORE --picks pick', 1, ['pick 0 not allowed', 'pick 0: its operations do not ascend']),
    (
        'list STORE --picks far',
        1,
        ['pick 0 not allowed', 'pick 0: there are 11 operations, and no 99'],
    ),
    (
        'list STORE --picks alone',
        1,
        ['pick 1 not allowed', 'pick 1: operation 5 needs operation 0'],
    ),
    ('tar STORE --states 13 --changes', 1, ['no such state', 'there are 12 states; with ']),
    ('tar STORE --state 11 --changes', 0, []),
    ('list many', 0, []),
    ('list crlf', 0, []),
    ('list -', 1, ['trace line 1: Syntax', '-:1: the file has no line']),
]
# The same for the second reading, whose reasons are more.
READING: List[Tuple[str, int, List[str]]] = [
    ('list --trace empty', 1, ['trace line 1: Syntax', 'empty:1: the trace is empty']),
    (
        'list --trace version',
        1,
        ['trace line 1: Syntax', 'version:1: version 5 is not known (1, 2, 3'],
    ),
    (
        'list --trace long-mode',
        1,
        ['trace line 1: Syntax', 'long-mode:1: mode "0755" is not three octal digits'],
    ),
    ('list --trace key', 1, ['trace line 1: Syntax', 'key:1: unknown key "comment"']),
    ('list --trace odd', 1, ['trace line 3: Syntax', 'odd:3: bytes ']),
    ('list --trace word', 1, ['trace line 2: UnknownOp', 'word:2: unknown op "wirte"']),
    ('list --trace none', 1, ['none: cannot read']),
    ('list --trace many --holes', 1, ['plan too large']),
    ('tar --trace STORE --state 13', 1, ['no such state']),
]


class WrongUsages(InFolder):
    def setUp(self) -> None:
        super().setUp()
        os.mkdir(self.path('d'))

    def check_rows(self, command: str, rows: List[Tuple[str, int, str]]) -> None:
        before = sorted(os.listdir(self.folder))
        for line, status, told in rows:
            with self.subTest(f'{command} {line}'):
                ran = self.run_tool(command, *line.replace('TRACE', TRACE).split())
                self.assertEqual((ran.returncode, ran.stdout), (status, ''), ran.stderr)
                lines = ran.stderr.splitlines()
                self.assertTrue(lines[-1].startswith(f'{command}: {told}'), ran.stderr)
                # A usage stands before an error of the command line, and nothing else anywhere.
                self.assertEqual(len(lines) > 1, told.startswith('error: '), ran.stderr)
                self.assertEqual(sorted(os.listdir(self.folder)), before)
                self.assert_nothing_left()

    def test_a_wrong_word_has_status_2_also_without_standard_output(self) -> None:
        for words in ('crashfs-check --jobs x', 'crashfs-campaign --seeds x', 'crashfs-record -x'):
            command = ['sh', '-c', f'exec {TOOLS}/{words} a -- true >&-']
            ran = subprocess.run(command, stderr=subprocess.PIPE, text=True, check=False)
            self.assertEqual(ran.returncode, 2, ran.stderr)
            self.assertNotIn('standard output', ran.stderr)

    @needed(hasattr(sys, 'get_int_max_str_digits'), 'this Python takes numbers of any length')
    def test_a_number_of_thousands_of_digits_is_a_wrong_one(self) -> None:
        number = '9' * 5_000
        for command, option, value, told in (
            ('crashfs-check', '--jobs', number, 'is not a number from 1'),
            ('crashfs-check', '--state', number, 'is neither N nor N/M'),
            ('crashfs-check', '--state', f'1/{number}', 'is neither N nor N/M'),
            ('crashfs-check', '--shard', f'1/{number}', 'is not I/N with I from 1 to N'),
            ('crashfs-check', '--serve', f'host:{number}', 'is not HOST:PORT'),
            ('crashfs-campaign', '--seeds', f'1-{number}', 'is no range such as 1-100'),
        ):
            with self.subTest(f'{command} {option}'):
                ran = self.run_tool(command, option, value)
                line = f'{command}: error: argument {option}: {value} {told}\n'
                self.assertEqual((ran.returncode, ran.stdout), (2, ''))
                self.assertEqual(ran.stderr[-len(line) :], line)

    def test_of_the_recorder(self) -> None:
        self.check_rows('crashfs-record', RECORD)

    def test_of_the_check(self) -> None:
        self.write(
            'killed',
            '#!/bin/sh\n[ $1 = tar ] && printf x && kill -9 $$\n'
            f'exec python3 {EXAMPLES.parent}/tools/crashfs_tools/reading "$@"\n',
            0o755,
        )
        self.check_rows('crashfs-check', CHECK)

    def test_the_version_is_printed(self) -> None:
        for command in ('crashfs-record', 'crashfs-check'):
            ran = self.run_tool(command, '--version')
            self.assertEqual(
                (ran.returncode, ran.stdout, ran.stderr),
                (0, f'{command} {VERSION} (not a release)\n', ''),
            )

    def test_a_help_that_cannot_be_printed_is_a_fault(self) -> None:
        for command in ('crashfs-record', 'crashfs-check'):
            for words in (['-S'], ['-S', '-u']):
                with open('/dev/full', 'w', encoding='utf-8') as full:
                    ran = subprocess.run(
                        [sys.executable, *words, str(TOOLS / command), '--help'],
                        stdout=full,
                        stderr=subprocess.PIPE,
                        text=True,
                    )
                self.assertEqual(
                    (ran.returncode, ran.stderr),
                    (3, f'{command}: standard output: No space left on device\n'),
                )

    def test_a_help_that_nobody_reads_is_none(self) -> None:
        for words in (['-S'], ['-S', '-u']):
            reader, writer = os.pipe()
            os.close(reader)
            with os.fdopen(writer, 'wb') as out:
                ran = subprocess.run(
                    [sys.executable, *words, str(TOOLS / 'crashfs-check'), '--help'],
                    stdout=out,
                    stderr=subprocess.PIPE,
                )
            self.assertEqual((ran.returncode, ran.stderr), (0, b''))


class Programs(InFolder):
    """Of `crashfs`, and of the second reading that takes its place."""

    def setUp(self) -> None:
        super().setUp()
        for name, text in FILES.items():
            self.write(name, text)

    def check_rows(self, start: List[str], rows: List[Tuple[str, int, List[str]]]) -> None:
        with socket.create_server(('127.0.0.1', 0)) as taken:
            port = str(taken.getsockname()[1])
            for line, status, told in rows:
                with self.subTest(line):
                    words = line.replace('STORE', STORE).replace('PORT', port).split()
                    ran = subprocess.run(
                        [*start, *words],
                        cwd=self.folder,
                        capture_output=True,
                        text=True,
                        stdin=subprocess.DEVNULL,
                        timeout=PATIENCE,
                    )
                    lines = ran.stderr.splitlines()
                    self.assertEqual((ran.returncode, len(lines)), (status, len(told)), ran.stderr)
                    for had, begin in zip(lines, told):
                        begin = f'crashfs: {begin.replace("PORT", port)}'
                        self.assertTrue(had.startswith(begin), ran.stderr)
                    self.assertEqual(ran.stdout != '', status == 0)

    @needs_program
    def test_of_the_program(self) -> None:
        assert FOUND is not None
        self.check_rows([FOUND.path], PROGRAM)

    def test_of_the_second_reading(self) -> None:
        self.check_rows([sys.executable, '-S', FAKE], READING)

    @needs_program
    def test_a_help_that_cannot_be_printed_is_a_fault(self) -> None:
        assert FOUND is not None
        for words in (['--help'], ['--version'], ['list', '--help']):
            with open('/dev/full', 'w', encoding='utf-8') as full:
                ran = subprocess.run([FOUND.path, *words], stdout=full, stderr=subprocess.DEVNULL)
            self.assertEqual(ran.returncode, 1, words)

    @needs_program
    def test_the_help_has_statuses_and_plain_words(self) -> None:
        assert FOUND is not None
        ran = subprocess.run([FOUND.path, '--help'], capture_output=True, text=True, check=True)
        self.assertIn('Exit status: 0 success; 1 a fault', ran.stdout)
        ran = subprocess.run([FOUND.path, 'picks', '--help'], capture_output=True, text=True)
        self.assertIn('For each operation the smallest set that still has it', ran.stdout)

    @needs_program
    def test_a_closed_pipe_is_silent(self) -> None:
        assert FOUND is not None
        for words in (['tar', '--states', '0-11'], ['list'], ['picks', '--lost']):
            reader, writer = os.pipe()
            os.close(reader)
            with os.fdopen(writer, 'wb') as out:
                ran = subprocess.run(
                    [FOUND.path, words[0], STORE, *words[1:]], stdout=out, stderr=subprocess.PIPE
                )
            self.assertEqual((ran.stderr, ran.returncode), (b'', 1), words)

    @needs_program
    def test_a_full_device_is_named(self) -> None:
        assert FOUND is not None
        for words in (['tar', '--states', '0-11'], ['list'], ['picks', '--lost']):
            with open('/dev/full', 'w', encoding='utf-8') as full:
                ran = subprocess.run(
                    [FOUND.path, words[0], STORE, *words[1:]],
                    stdout=full,
                    stderr=subprocess.PIPE,
                    text=True,
                )
            self.assertEqual(
                (ran.returncode, ran.stderr.splitlines()),
                (
                    1,
                    [
                        'crashfs: output failed',
                        'crashfs: standard output: No space left on device (os error 28)',
                    ],
                ),
                words,
            )


if __name__ == '__main__':
    unittest.main()
