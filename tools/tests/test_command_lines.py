"""How command lines of the program end: their status, and the lines on standard error, which say
why a trace is refused."""

from __future__ import annotations

import subprocess
import unittest
from typing import List, Optional, Tuple

from crashfs_tools.common.program import Crashfs

from .support import PATIENCE, InFolder, needed

PROGRAM = Crashfs.find(None)
needs_program = needed(PROGRAM is not None, 'crashfs is not built')
HEADER = '{"trace":1,"owner":"ann","group":"ann","mode":"755"}\n'
UNREAD = [
    'crashfs: no such file: cannot read',
    'crashfs: no such file: No such file or directory (os error 2)',
]
SERVE = 'serve --users users --listen 127.0.0.1:0 --connections 1 --workers'.split()
PICKS = ['picks', 'empty.trace']
DRAWN = ['--sample', '1', '--seed', '1']
# Lines of clap, which refuses a command line, or prints its version.
CLAP = None
ROWS: List[Tuple[List[str], int, Optional[List[str]]]] = [
    (['--version'], 0, []),
    ([], 2, CLAP),
    (['list', '--trace', 'no such file'], 1, UNREAD),
    (['list', '--trace', 'broken.trace'], 1, ['crashfs: trace line 1: Syntax']),
    (['list', 'broken.trace'], 1, ['crashfs: trace line 1: Syntax']),
    (['list', 'broken.trace', '--trace', 'broken.trace'], 2, CLAP),
    (['list', '.'], 1, ['crashfs: .: cannot read', 'crashfs: .: Is a directory (os error 21)']),
    (
        ['list', 'faulty.trace'],
        1,
        [
            'crashfs: trace line 1: Syntax',
            'crashfs: faulty.trace:1: mode "0755" is not three octal digits',
        ],
    ),
    (
        ['tar', 'empty.trace', '--state', '1'],
        1,
        ['crashfs: no such state', 'crashfs: there are 1 states; with --holes 1'],
    ),
    (
        ['list', 'empty.trace', '--picks', 'pick'],
        1,
        [
            'crashfs: pick 0 not allowed',
            'crashfs: pick 0: there are 0 operations, and no 0',
        ],
    ),
    (['tar', 'empty.trace', '--states', '0-0,'], 2, CLAP),
    ([*PICKS], 2, CLAP),
    ([*PICKS, '--lost', '--files'], 0, []),
    ([*PICKS, '--every', '--most', '16777216'], 0, []),
    ([*PICKS, '--every', '--most', '16777217'], 2, CLAP),
    ([*PICKS, '--every', '--most', '0'], 2, CLAP),
    ([*PICKS, '--every', '--lost'], 2, CLAP),
    ([*PICKS, '--every', '--files'], 2, CLAP),
    ([*PICKS, '--every', *DRAWN], 2, CLAP),
    ([*PICKS, '--files', *DRAWN], 2, CLAP),
    ([*PICKS, '--every', '--count', '--most', '5'], 2, CLAP),
    ([*PICKS, '--every', '--different'], 0, []),
    ([*PICKS, '--every', '--different', '--most', '1'], 0, []),
    ([*PICKS, '--different'], 2, CLAP),
    ([*PICKS, '--lost', '--different'], 2, CLAP),
    ([*PICKS, '--files', '--different'], 2, CLAP),
    ([*PICKS, *DRAWN, '--different'], 2, CLAP),
    ([*PICKS, '--every', '--different', '--count'], 2, CLAP),
    ([*PICKS, '--lost', '--most', '5'], 2, CLAP),
    ([*PICKS, '--lost', '--count'], 2, CLAP),
    ([*PICKS, '--lost', '--seed', '1'], 2, CLAP),
    ([*PICKS, '--sample', '1'], 2, CLAP),
    ([*PICKS, '--sample', '16384', '--seed', '18446744073709551615'], 0, []),
    ([*PICKS, '--sample', '16385', '--seed', '1'], 2, CLAP),
    ([*PICKS, '--sample', '0', '--seed', '1'], 2, CLAP),
    ([*PICKS, '--sample', '1', '--seed', '18446744073709551616'], 2, CLAP),
    ([*SERVE, '64', '--trace', 'no such file'], 1, UNREAD),
    ([*SERVE, '65', '--trace', 'no such file'], 2, CLAP),
]
REASONS: List[Tuple[str, Optional[str]]] = [
    ('\ufeff{}', 'it starts with a byte order mark'),
    ('[1]', 'it is no JSON object'),
    ('{"trace":1', 'it is no JSON object'),
    ('{"trace":5}', 'version 5 is not known (1, 2, 3, 4)'),
    ('{"mode":755}', 'mode 755 is not three octal digits'),
    ('{"bytes":"686"}', 'bytes has an odd number of digits'),
    ('{"comment":1}', 'unknown key "comment"'),
    ('{"target":"t","length":1,"parts":[],"comment":1}', 'unknown key "comment"'),
    ('{"op":"sync","mode":"755"}', None),
]
UNKNOWN = [
    ('{"op":"wirte"}', 'unknown op "wirte"'),
    ('{"start":"pipe"}', 'unknown start "pipe"'),
]


@needs_program
class CommandLines(InFolder):
    def run_program(self, *words: str) -> Tuple[int, List[str]]:
        """The status, and the lines on standard error."""
        assert PROGRAM is not None
        ran = subprocess.run(
            [PROGRAM.path, *words],
            cwd=self.folder,
            stdin=subprocess.DEVNULL,
            stdout=subprocess.PIPE,
            stderr=subprocess.PIPE,
            text=True,
            check=False,
            timeout=PATIENCE,
        )
        return ran.returncode, ran.stderr.splitlines()

    def test_a_command_line_has_its_status(self) -> None:
        """`--version` has status 0, no command and a trace that is given twice 2, a trace that
        can't be read or is at fault and a state past the last 1, with its line on standard error,
        and a second one that says why; `serve` with 64 workers reads its trace, and with 65 is
        refused with 2."""
        self.write('broken.trace', '{}')
        self.write('faulty.trace', HEADER.replace('755', '0755'))
        self.write('empty.trace', HEADER)
        self.write('pick', '[0]\n')
        self.write('users', '1:ann::\n')
        for words, status, told in ROWS:
            with self.subTest(words):
                found, lines = self.run_program(*words)
                self.assertEqual(found, status)
                self.assertTrue(lines if told is CLAP else lines == told, lines)

    def test_a_refused_line_has_its_reason(self) -> None:
        """Of a line that is no line of a trace it is said which part is at fault: no line at all, a
        byte order mark, a version, a mode, an odd number of digits, an unknown key, operation or
        kind of start line."""
        for line, reason in [('', 'the file has no line'), *REASONS]:
            self.assert_reason(line, 1, 'Syntax', reason)
        for line, reason in UNKNOWN:
            self.assert_reason(HEADER + line, 2, 'UnknownOp', reason)

    def assert_reason(self, text: str, line: int, kind: str, reason: Optional[str]) -> None:
        self.write('a.trace', text)
        wanted = [f'crashfs: trace line {line}: {kind}']
        wanted += [f'crashfs: a.trace:{line}: {reason}'] if reason else []
        self.assertEqual(self.run_program('list', 'a.trace'), (1, wanted), text)


if __name__ == '__main__':
    unittest.main()
