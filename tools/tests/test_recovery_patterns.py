"""The recovery commands of a page are the files that it names, and accept what they should."""

from __future__ import annotations

import os
import re
import subprocess
import sys
import unittest
from typing import List, Sequence, Tuple

from .support import EXAMPLES, PATIENCE, TOOLS, InFolder

PAGE = (TOOLS.parent / 'docs' / 'how-to' / 'recovery-command.md').read_text('utf-8')
BLOCK = re.compile(r'`examples/([\w./-]+)`:\n\n((?:    .*\n|\n+(?=    ))+)')
# A store that prints its rows, and a server of these rows by the protocol of the page.
STORE = '#!/bin/sh\ncat rows\n'
SERVER = """\
import socketserver, sys

rows = dict(line.split('=') for line in open('rows').read().split())


class Handler(socketserver.StreamRequestHandler):
    def handle(self):
        for request in self.rfile:
            word, *key = request.decode().split()
            answer = rows.get(key[0], 'none') if word == 'get' else len(rows)
            self.wfile.write(f'{answer}\\n'.encode())


with socketserver.TCPServer(('127.0.0.1', int(sys.argv[1])), Handler) as server:
    server.handle_request()
"""

# The rows of a store, the acknowledged lines, and the cause that is printed.
Case = Tuple[Sequence[str], Sequence[str], str]


class Patterns(InFolder):
    def assert_causes(self, command: List[str], cases: Sequence[Case]) -> None:
        """What the command says of each case: nothing if it accepts the rows."""
        for number, (rows, lines, cause) in enumerate(cases):
            with self.subTest(rows=rows, lines=lines):
                self.write('rows', ''.join(f'{row}\n' for row in rows))
                ran = subprocess.run(
                    [str(EXAMPLES / 'recovery' / command[0]), *command[1:]],
                    cwd=self.folder,
                    timeout=PATIENCE,
                    text=True,
                    input=''.join(f'{line}\n' for line in lines),
                    stdout=subprocess.DEVNULL,
                    stderr=subprocess.PIPE,
                    check=False,
                    env={**os.environ, 'CRASHFS_STATE': str(os.getpid() + number)},
                )
                self.assertEqual(ran.stderr.strip().partition(':')[0], cause, ran.stderr)
                self.assertEqual(ran.returncode == 0, cause == '')

    def test_a_server_is_asked_for_each_acknowledged_row(self) -> None:
        self.assert_causes(
            ['server.py', sys.executable, self.write('server', SERVER)],
            [
                ((), (), ''),
                (('a=1',), (), ''),
                (('a=1', 'b=2'), ('a=1 is stored', 'b=2 is stored'), ''),
                (('b=2',), ('a=1 is stored',), 'lost'),
                (('a=2',), ('a=1 is stored',), 'lost'),
                (('a=1', 'b=2', 'c=3'), ('a=1 is stored',), 'wrong'),
            ],
        )

    def test_a_server_that_does_not_start_is_refused(self) -> None:
        self.assert_causes(['server.py', 'false'], [((), (), 'refused')])

    def test_a_queue_has_what_was_queued_and_not_done(self) -> None:
        self.assert_causes(
            ['queue.py', 'a b c', self.write('store', STORE, 0o755)],
            [
                ((), (), ''),
                (('a',), (), ''),
                (('a', 'b', 'a'), ('queued a', 'queued b'), ''),
                (('b',), ('queued a', 'done a', 'queued b'), ''),
                (('a', 'b'), ('queued a', 'done a', 'queued b'), ''),
                (('b',), ('queued a', 'queued b'), 'lost'),
                (('x',), ('queued a',), 'lost'),
                (('a', 'x'), ('queued a',), 'wrong'),
                (('a', 'b', 'c'), ('queued a',), 'wrong'),
            ],
        )

    def test_each_client_has_its_acknowledged_rows_and_at_most_its_next(self) -> None:
        self.assert_causes(
            ['clients.py', 'ab', self.write('store', STORE, 0o755)],
            [
                ((), (), ''),
                (('a1', 'b1'), (), ''),
                (('b1', 'b2', 'a1'), ('b1 is stored', 'b2 is stored'), ''),
                (('a1', 'a2', 'b1'), ('a1 is stored', 'b1 is stored'), ''),
                (('a1',), ('a1 is stored', 'b1 is stored'), 'lost'),
                (('a2', 'b1'), ('a1 is stored',), 'lost'),
                (('a1', 'a2', 'a3'), ('a1 is stored',), 'wrong'),
                (('a1', 'b3'), ('a1 is stored',), 'wrong'),
                (('c1',), (), 'wrong'),
            ],
        )

    def test_a_store_that_fails_is_refused(self) -> None:
        for command in (['queue.py', 'a b'], ['clients.py', 'ab']):
            self.assert_causes([*command, 'false'], [((), (), 'refused')])


class Page(unittest.TestCase):
    def test_the_code_of_each_pattern_is_that_of_its_file(self) -> None:
        found = BLOCK.findall(PAGE)
        self.assertEqual(len(found), 5)
        for name, block in found:
            code = re.sub('^    ', '', block, flags=re.M)
            self.assertTrue((EXAMPLES / name).read_text('utf-8').endswith(code), name)


if __name__ == '__main__':
    unittest.main()
