"""The command `serve` with more than a few: clients at once, runs, states, attaches, sessions."""

from __future__ import annotations

import re
import shutil
import socket
import struct
import subprocess
import time
import unittest
from typing import List

from .serving import ANN, ATTACHED, VERSION, Server
from .support import PATIENCE
from .test_serving import PROGRAM, STAFF, TRACE, USERS, F, G, Served, needs_program
from .wire_replies import text_of
from .wire_words import message_of

# A file of another group in each of so many states.
STATES = 20
OWN = '{"start":"file","path":"/o","owner":"bob","group":"bob","mode":"640","bytes":"21"}\n'
CREATES = [
    f'{{"op":"creat","path":"/n{number}","owner":"ann","group":"staff","mode":"644"}}\n'
    for number in range(STATES - 1)
]


@needs_program
class Many(Served):
    def test_each_of_eight_clients_is_served_while_all_are_there(self) -> None:
        server = self.server('--ready', '--connections', '8')
        talkers = [self.talker(server, f'attach 0 ann 0/{number}') for number in range(8)]
        for talker in reversed(talkers):
            self.assertEqual(talker.ask('walk 0 1 f'), 'Rwalk tag 1 wqid [(00 0 1)]')
        for talker in talkers:
            talker.end()
        lines = [f'run 0/{number} entries 2 audit ok\n' for number in range(8)]
        self.assertEqual((server.end(), server.runs), (0, ''.join(lines)))

    def test_a_client_attaches_to_as_many_runs_as_it_likes(self) -> None:
        """Names of runs have up to 32 letters, and runs differ by any of them."""
        server = self.server('--ready', '--connections', '1')
        names = [f'{"long" * 7}{number:03}' for number in range(100)]
        ann = self.talker(server)
        for fid, name in enumerate(names):
            self.assertEqual(ann.ask(f'attach {fid} ann 0/{name}'), ATTACHED)
        ann.ask('walk 0 200 f')
        ann.ask('open 200 1')
        ann.ask('write 200 0 HI')
        ann.ask('walk 1 201 f')
        ann.ask('open 201 0')
        self.assertEqual(ann.ask('read 201 0 64'), "Rread 'hello'")
        ann.end()
        self.assertEqual(server.end(), 0)
        self.assertEqual(re.findall(r'^run 0/(\w+) .* audit ok$', server.runs, re.M), names)

    def test_each_state_has_the_users_of_the_file(self) -> None:
        """In each state bob may read his own file, and ann may not."""
        server = self.server(
            '--ready', '--connections', '1', trace=STAFF + F + OWN + ''.join(CREATES)
        )
        client = self.talker(server)
        for state in range(STATES):
            for name, reply in (('bob', 'Ropen'), ('ann', 'Rerror tag 1 ename "O6 ')):
                client.ask(f'attach 0 {name} {state}/x')
                client.ask('walk 0 1 o')
                self.assertTrue(client.ask('open 1 0').startswith(reply), (state, name))
                client.ask('clunk 1')
                client.ask('clunk 0')
        client.end()
        self.assertEqual(server.end(), 0)

    def test_a_wstat_is_one_entry(self) -> None:
        server = self.server('--ready', '--connections', '1')
        ann = self.talker(server, ANN)
        ann.ask('walk 0 1 f')
        for mode in ('600', '644', '664'):
            self.assertEqual(ann.ask(f'wstat 1 mode={mode}'), 'Rwstat tag 1')
        ann.end()
        self.assertEqual((server.end(), server.runs), (0, 'run 0/x entries 5 audit ok\n'))

    def test_a_connection_that_is_reset_has_its_entries(self) -> None:
        server = self.server('--ready', '--connections', '2')
        first, second = self.talker(server, ANN), self.talker(server, ANN)
        first.ask('walk 0 1 f')
        first.stream.setsockopt(socket.SOL_SOCKET, socket.SO_LINGER, struct.pack('ii', 1, 0))
        first.end()
        deadline = time.monotonic() + PATIENCE
        while '\n0 ended' not in server.errors and time.monotonic() < deadline:
            time.sleep(0.05)
        second.end()
        self.assertEqual((server.end(), server.runs), (0, 'run 0/x entries 3 audit ok\n'))

    def test_a_write_has_the_second_in_which_it_was_made(self) -> None:
        server = self.server('--ready', '--connections', '1')
        ann = self.talker(server, ANN)
        times = []
        for words in ('walk 0 1 f', 'open 1 1'):
            ann.ask(words)
        for _ in range(2):
            ann.ask('write 1 0 HI')
            times.append(int(ann.ask('stat 1').partition(' mtime ')[2].split()[0]))
            time.sleep(1.1)
        self.assertIn(times[1] - times[0], range(1, 60))

    def test_the_first_client_after_a_change_has_the_new_users(self) -> None:
        server = self.server('--ready', '--reload', '--connections', '1')
        self.assertGreater(server.port, 0)
        self.write('users', '1:ann::\n2:dan::\n')
        dan = self.talker(server)
        self.assertEqual(dan.ask('attach 0 dan 0/x'), ATTACHED)

    def test_a_message_that_is_none_gets_a_line(self) -> None:
        """What is too short for a message is no more 9P2000 than what is too long."""
        for sent in (b'\3\0\0\0', b'GET / HTTP/1.0\r\n\r\n'):
            server = self.quiet_server()
            with socket.create_connection(('127.0.0.1', server.port), PATIENCE) as client:
                client.sendall(sent)
                self.assertEqual(client.recv(1), b'')
            self.assertEqual(server.end(), 0)
            self.assertRegex(server.errors, '^crashfs: connection 0 is no 9P2000: .')

    def quiet_server(self) -> Server:
        assert PROGRAM is not None
        words = [self.write('trace', TRACE), '--ready', '--connections', '1']
        server = Server(PROGRAM.path, words)
        self.addCleanup(server.__exit__, None, None, None)
        return server

    def test_without_users_the_groups_of_the_trace_attach_too(self) -> None:
        server = self.quiet_server()
        client = self.talker(server)
        for name in ('cat', 'staff', 'ann'):
            self.assertEqual(client.ask(f'attach 0 {name} 0/x'), ATTACHED, name)
            client.ask('clunk 0')
        client.end()
        self.assertEqual(server.end(), 0)


@needs_program
class LinuxAtOnce(Served):
    """Requests of Linux's client that don't wait for the replies to those before them."""

    def at_once(self, talker_words: List[str]) -> List[str]:
        server = self.server(
            '--ready', '--connections', '1', '--client', 'linux', trace=STAFF + F + G
        )
        ann = self.talker(server, ANN)
        ann.stream.sendall(b''.join(message_of(words) for words in talker_words))
        replies = []
        for _ in talker_words:
            size = ann.replies.read(4)
            reply = size + ann.replies.read(int.from_bytes(size, 'little') - 4)
            replies.append(text_of(reply).split()[0])
        ann.end()
        self.assertEqual(server.end(), 0)
        return [*replies, server.errors]

    def test_a_rename_that_waits_for_no_walk(self) -> None:
        """The directory in which the target is removed was walked to in the same packet."""
        words = ['walk 0 5', 'walk 0 1 f', 'wstat 1 name=g,muid=ann', 'walk 0 2 f', 'walk 0 3 g']
        *replies, errors = self.at_once(words)
        self.assertEqual(replies, ['Rwalk', 'Rwalk', 'Rwstat', 'Rerror', 'Rwalk'])
        self.assertIn('0 <- Tremove tag 1 fid 4294967294\n0 -> Rremove tag 1\n', errors)

    def test_a_new_session_has_its_own_attach_and_directories(self) -> None:
        """Its rename finds the directory that was walked to since, as there was one attach."""
        words = ['walk 0 5', VERSION, ANN, 'walk 0 5', 'walk 0 1 f', 'wstat 1 name=g,muid=ann']
        *replies, errors = self.at_once([*words, 'walk 0 2 f'])
        self.assertEqual(replies[-3:], ['Rwalk', 'Rwstat', 'Rerror'])
        self.assertIn('0 <- Tremove tag 1 fid 4294967294\n0 -> Rremove tag 1\n', errors)


@needs_program
@unittest.skipIf(shutil.which('strace') is None, 'strace not installed')
class Workers(Served):
    def started(self, workers: int) -> int:
        """How many threads the command starts until it has published all states."""
        assert PROGRAM is not None
        words = [self.write('trace', TRACE), '--users', self.write('users', USERS), '--ready']
        subprocess.run(
            ['strace', '-f', '-qq', '-e', 'trace=clone,clone3', '-o', self.path('log')]
            + [PROGRAM.path, 'serve', *words, '--workers', str(workers), '--listen', 'nowhere'],
            stdin=subprocess.DEVNULL,
            stdout=subprocess.DEVNULL,
            stderr=subprocess.DEVNULL,
            check=False,
            timeout=PATIENCE,
        )
        return len(re.findall(r'clone3?\(', self.read('log')))

    def test_there_are_as_many_workers_as_were_asked_for(self) -> None:
        self.assertEqual(self.started(4) - self.started(1), 3)


if __name__ == '__main__':
    unittest.main()
