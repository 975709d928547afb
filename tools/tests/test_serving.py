"""The command `serve` over loopback: clients at once and one after another, users that are read
again, Linux's own client, addresses that are refused, and what is printed."""

from __future__ import annotations

import os
import signal
import socket
import subprocess
import threading
import unittest
from typing import List, Optional, Tuple

from crashfs_tools.common.program import Crashfs

from .serving import ANN, ATTACHED, BOB, Server, Talker
from .support import PATIENCE, InFolder, needed

PROGRAM = Crashfs.find(None)
needs_program = needed(PROGRAM is not None, 'crashfs is not built')
USERS = '1:ann::\n2:bob::\n3:cat::\n4:staff:ann:ann,bob\n'
HEADER = '{"trace":1,"owner":"cat","group":"%s","mode":"%s"}\n'
F = '{"start":"file","path":"/f","owner":"ann","group":"staff","mode":"664","bytes":"68656c6c6f"}\n'
G = '{"start":"file","path":"/g","owner":"bob","group":"staff","mode":"600","bytes":"21"}\n'
D = '{"start":"dir","path":"/d","owner":"ann","group":"staff","mode":"775"}\n'
MADE = '{"op":"creat","path":"/g","owner":"ann","group":"staff","mode":"644"}\n'
STAFF = HEADER % ('staff', '775')
TRACE = STAFF + F + MADE
MOVED = '''\
{"trace":4,"profile":"ordered","block":4096,"owner":"cat","group":"staff","mode":"775"}
{"start":"dir","path":"/t","owner":"ann","group":"staff","mode":"775"}
{"start":"file","path":"/t/f","owner":"ann","group":"staff","mode":"664","length":9000,"parts":[]}
{"start":"symlink","path":"/t/l","owner":"ann","group":"staff","target":"f"}
{"op":"rename","from":"/t","to":"/d"}
{"op":"symlink","path":"/d/m","owner":"ann","group":"staff","target":"x"}
{"op":"rename","from":"/d/m","to":"/d/l"}
'''
OPENED = 'Ropen tag 1 qid (00 0 1) iounit 0'
UNKNOWN, DENIED = 'Rerror tag 1 ename "A6 unknown user"', 'Rerror tag 1 ename "O7 no write right"'
# How many seconds may be between two looks at the time.
APART = 60


class Served(InFolder):
    def server(self, *words: str, trace: str = TRACE, is_open: bool = False) -> Server:
        """A server of a trace that prints its messages."""
        assert PROGRAM is not None
        given = ['--verbose', '--users', self.write('users', USERS), *words]
        server = Server(PROGRAM.path, [self.write('trace', trace), *given], is_open)
        self.addCleanup(server.__exit__, None, None, None)
        return server

    def talker(self, server: Server, *first: str) -> Talker:
        talker = Talker(server, *first)
        self.addCleanup(talker.end)
        return talker


@needs_program
class Clients(Served):
    def test_two_clients_are_served_at_once_and_share_a_run(self) -> None:
        """Once both have opened `/f` ann writes `HI` into it, and then bob reads `HIllo`. The line
        at the end is `run 0/x entries 10 audit ok`."""
        server = self.server('--ready', '--connections', '2')
        ann, bob = self.talker(server, ANN), self.talker(server, BOB)
        for talker, mode in ((ann, 1), (bob, 0)):
            talker.ask('walk 0 1 f')
            self.assertEqual(talker.ask(f'open 1 {mode}'), OPENED)
        self.assertEqual(ann.ask('write 1 0 HI'), 'Rwrite tag 1 count 2')
        self.assertEqual(bob.ask('read 1 0 64'), "Rread 'HIllo'")
        for talker in (ann, bob):
            self.assertEqual(talker.ask('clunk 1'), 'Rclunk tag 1')
            talker.end()
        self.assertEqual((server.end(), server.runs), (0, 'run 0/x entries 10 audit ok\n'))

    def test_clients_of_states_before_and_after_the_rename_of_a_directory(self) -> None:
        """A trace of version 4: at the end `/t`, with a symbolic link in it, is `/d`."""
        if PROGRAM is None or not PROGRAM.can_read_version(4):
            self.skipTest('the program reads no trace of version 4')
        server = self.server('--ready', '--connections', '2', trace=MOVED)
        for state, there, gone, target in (('0', 't', 'd', 'f'), ('3', 'd', 't', 'x')):
            ann = self.talker(server, ANN.replace('0/x', f'{state}/x'))
            self.assertEqual(ann.ask(f'walk 0 1 {gone}'), 'Rerror tag 1 ename "K8 no such name"')
            walked = 'Rwalk tag 1 wqid [(80 0 1), (02 0 3)]'
            self.assertEqual(ann.ask(f'walk 0 1 {there}/l'), walked)
            self.assertEqual(ann.ask('open 1 0'), 'Ropen tag 1 qid (02 0 3) iounit 0')
            self.assertEqual(ann.ask('read 1 0 9'), f"Rread '{target}'")
            ann.end()
        self.assertEqual(server.end(), 0)
        ended = ''.join(f'run {state}/x entries 6 audit ok\n' for state in (0, 3))
        self.assertEqual(server.runs, ended)

    def test_a_client_that_hangs_up_inside_a_message(self) -> None:
        """A client that is attached hangs up after three bytes of a message: the command still
        ends with status 0, and says why that connection ended. The next one's messages are
        printed, and its attach once it is granted. The audit at the end is of both."""
        server = self.server('--connections', '2')
        first = self.talker(server)
        self.assertEqual(first.attach_at_last(ANN), ATTACHED)
        first.stream.sendall(b'\x13\0\0')
        first.stream.shutdown(socket.SHUT_WR)
        self.assertEqual(first.replies.read(), b'')
        second = self.talker(server)
        self.assertEqual(second.attach_at_last(ANN), ATTACHED)
        second.end()
        self.assertEqual((server.end(), server.runs), (0, 'run 0/x entries 2 audit ok\n'))
        for text in (
            'published 2 states\n',
            '0 accepted from 127.0.0.1:',
            '0 attached ann to 0/x\n',
            '0 ended: the stream ended inside a message\n',
            '1 <- Tversion tag 1 msize 8192 version "9P2000"\n'
            '1 -> Rversion tag 1 msize 8192 version "9P2000"\n',
            '1 attached ann to 0/x\n1 ended\n',
        ):
            self.assertIn(text, server.errors)

    def test_three_clients_are_served_one_after_another_until_the_input_ends(self) -> None:
        """With `--again` and one connection at once, two clients at the same time and one after
        them are served one after the other; once the input ends the run's line is
        `run 0/x entries 6 audit ok`."""
        server = self.server('--ready', '--again', '--connections', '1', is_open=True)
        looks = [threading.Thread(target=self.look_for_g, args=(server,)) for _ in range(3)]
        for look in looks[:2]:
            look.start()
        for look in looks[:2]:
            look.join(PATIENCE)
        looks[2].start()
        looks[2].join(PATIENCE)
        self.assertEqual((server.end(), server.runs), (0, 'run 0/x entries 6 audit ok\n'))
        first = server.errors.find('\n0 ended\n1 accepted from 127.0.0.1:')
        self.assertTrue(-1 < first < server.errors.find('\n1 ended\n2 accepted from 127.0.0.1:'))

    def test_until_killed_it_does_not_look_at_its_input(self) -> None:
        """With `--until-killed` clients that come after the end of an input that was empty are
        served one after another, until the server is killed."""
        server = self.server('--ready', '--until-killed', '--connections', '1')
        for _ in range(3):
            self.look_for_g(server)
        self.assertIsNone(server.child.poll())
        server.child.terminate()
        self.assertEqual((server.end(), server.runs), (-signal.SIGTERM, ''))

    @staticmethod
    def look_for_g(server: Server) -> None:
        talker = Talker(server, ANN)
        talker.ask('walk 0 1 g')
        talker.end()

    def test_a_written_file_has_the_time_of_the_machine(self) -> None:
        """A file that a client wrote has the mtime of a file that the test itself writes."""
        server = self.server('--ready', '--connections', '1')
        ann = self.talker(server, ANN)
        for words in ('walk 0 1 f', 'open 1 1', 'write 1 0 HI'):
            ann.ask(words)
        mtime = int(ann.ask('stat 1').partition(' mtime ')[2].split()[0])
        now = os.stat(self.write('now', '')).st_mtime
        self.assertLess(abs(now - mtime), APART)


@needs_program
class Users(Served):
    def change(self, text: Optional[str]) -> None:
        """The users file becomes another, or goes away."""
        if text is None:
            os.remove(self.path('users'))
        else:
            self.write('users', text)

    def answers(self, server: Server) -> List[str]:
        """The replies to bob and to clients that come while the file changes."""
        bob = self.talker(server)
        replies = [bob.ask(BOB)]
        for text, asked in LATER:
            self.change(text)
            client = self.talker(server)
            replies += [client.ask(words) for words in asked]
        return replies + [bob.ask(words) for words in ('walk 0 1 f', 'open 1 0', 'read 1 0 9')]

    def test_runs_that_are_made_later_have_the_new_users(self) -> None:
        """With `--reload`, without `--again` and with it: bob attaches `0/x`. The file becomes ann
        and dan's: on the next connection dan's attach to `0/x` and bob's to `0/y` are A6; dan
        attaches `0/y`, and may not open `/f` with 1, but with 0. It becomes `1:ann:`, for two
        connections: dan attaches `0/z` on each, and `users line 1: FieldCount` is printed once. It
        goes away: dan attaches `0/z`, and `cannot read` is printed. It becomes only ann's,
        in a line that ends with a carriage return, which is printed: dan attaches `0/z`, and `1/x`
        is A6. Bob, on his own connection, then reads `/f` of `0/x`."""
        agains: List[List[str]] = [[], ['--again']]
        for again in agains:
            server = self.server(
                '--ready', '--reload', '--connections', '6', *again, is_open=bool(again)
            )
            self.assertEqual(self.answers(server), ANSWERS)
            self.end_talkers()
            self.assertEqual((server.end(), server.runs), (0, RUNS))
            denied = f'1 -> {UNKNOWN}\n'
            unread = f'crashfs: {self.path("users")}: cannot read\n'
            for text, count in (
                (denied, 2),
                ('crashfs: users line 1: FieldCount\n', 1),
                (unread, 1),
                (f'crashfs: users line 1 ends {RETURN}\n', 1),
            ):
                self.assertEqual(server.errors.count(text), count, text)

    def talker(self, server: Server, *first: str) -> Talker:
        talker = Talker(server, *first)
        self.talkers = [*getattr(self, 'talkers', []), talker]
        return talker

    def end_talkers(self) -> None:
        for talker in self.talkers:
            talker.end()
        self.talkers = []


LATER = [
    (
        '1:ann::\n2:dan::\n',
        ['attach 0 dan 0/x', 'attach 0 bob 0/y', 'attach 0 dan 0/y', 'walk 0 1 f', 'open 1 1']
        + ['open 1 0'],
    ),
    ('1:ann:', ['attach 0 dan 0/z']),
    ('1:ann:', ['attach 0 dan 0/z']),
    (None, ['attach 0 dan 0/z']),
    ('1:ann::\r\n', ['attach 0 dan 0/z', 'attach 2 dan 1/x']),
]
RETURN = 'with a carriage return, which belongs to its last field'
WALKED = 'Rwalk tag 1 wqid [(00 0 1)]'
ANSWERS = [ATTACHED, UNKNOWN, UNKNOWN, ATTACHED, WALKED, DENIED, OPENED, *[ATTACHED] * 4, UNKNOWN]
ANSWERS += [WALKED, OPENED, "Rread 'hello'"]
RUNS = ''.join(
    f'run {name} entries {count} audit ok\n'
    for name, count in (('0/x', 6), ('0/y', 6), ('0/z', 4), ('1/x', 1))
)


@needs_program
class Linux(Served):
    """Clients as Linux's own is one: it asks by other texts, and for renames onto what is there."""

    def asked(self, trace: str, *messages: str) -> List[str]:
        """The replies to ann, and then the server's errors."""
        server = self.server('--ready', '--connections', '1', '--client', 'linux', trace=trace)
        ann = self.talker(server, ANN)
        replies = [ann.ask(words) for words in messages]
        ann.end()
        self.assertEqual(server.end(), 0)
        return [*replies, server.errors]

    def test_a_client_of_linux_gets_an_error_that_it_knows(self) -> None:
        """A walk to `/g`, which isn't made yet, is `No such file or directory` over the socket,
        and K8 by `--verbose`."""
        reply, errors = self.asked(TRACE, 'walk 0 1 g')
        self.assertEqual(reply, 'Rerror tag 1 ename "No such file or directory"')
        self.assertIn('0 -> Rerror tag 1 ename "K8 no such name"\n', errors)

    def test_a_file_gets_the_name_of_another_file(self) -> None:
        """A client of Linux gives `/f` the name of `/g`, which is there: `/g` then reads `hello`,
        and `--verbose` prints the removal in between."""
        *replies, errors = self.asked(
            STAFF + F + G + D,
            *('walk 0 5', 'walk 0 1 f', 'wstat 1 name=g,muid=ann', 'walk 0 2 f', 'walk 0 3 g'),
            *('open 3 0', 'read 3 0 64'),
        )
        types = ['Rwalk', 'Rwalk', 'Rwstat', 'Rerror', 'Rwalk', 'Ropen', 'Rread']
        self.assertEqual([reply.split()[0] for reply in replies], types)
        self.assertEqual(replies[-1], "Rread 'hello'")
        self.assertIn('0 <- Tremove tag 1 fid 4294967294\n0 -> Rremove tag 1\n', errors)

    def test_a_file_does_not_get_the_name_of_a_directory(self) -> None:
        """A directory's name is refused as `File exists`, and all stays."""
        exists = 'Rerror tag 1 ename "File exists"'
        rename = 'wstat 1 name=d,muid=ann'
        for asked in (
            ['walk 0 5', 'walk 0 1 f', 'walk 0 4 d', 'walk 0 2 f', rename],
            ['walk 0 5', 'walk 0 1 f', rename, 'walk 0 4 d', 'walk 0 2 f'],
        ):
            *replies, _ = self.asked(STAFF + F + G + D, *asked)
            for words, reply in zip(asked, replies):
                self.assertEqual(reply == exists, words == rename, words)
                self.assertEqual(reply.startswith('Rwalk'), words != rename, words)

    def test_nothing_is_removed_for_a_user_who_may_not_rename(self) -> None:
        """If the user has no write right in the directory, Q6 comes before Q7, and nothing is
        removed."""
        *replies, errors = self.asked(
            HEADER % ('cat', '755') + F + G,
            *('walk 0 5', 'walk 0 1 f', 'wstat 1 name=g,muid=ann', 'walk 0 3 g', 'walk 0 2 f'),
        )
        types = ['Rwalk', 'Rwalk', 'Rerror', 'Rwalk', 'Rwalk']
        self.assertEqual([reply.split()[0] for reply in replies], types)
        self.assertIn('0 -> Rerror tag 1 ename "Q6 no write right in the parent"\n', errors)
        self.assertNotIn('Tremove', errors)


@needs_program
class Refusals(Served):
    """Commands that serve nobody."""

    def refused(self, *words: str, trace: str = TRACE) -> List[str]:
        """The lines on standard error of a command that ends with status 1 and prints nothing."""
        assert PROGRAM is not None
        given = [self.write('trace', trace), '--users', self.write('users', USERS), *words]
        ran = subprocess.run(
            [PROGRAM.path, 'serve', *given],
            stdin=subprocess.DEVNULL,
            stdout=subprocess.PIPE,
            stderr=subprocess.PIPE,
            text=True,
            check=False,
            timeout=PATIENCE,
        )
        self.assertEqual((ran.returncode, ran.stdout), (1, ''))
        return ran.stderr.splitlines()

    def test_an_address_that_is_none(self) -> None:
        """A line on standard error, and a second one with the address and the reason."""
        first, second = self.refused('--listen', 'nowhere')
        self.assertEqual(first, 'crashfs: cannot listen')
        self.assertRegex(second, '^crashfs: nowhere: .')

    def test_a_port_that_is_in_use(self) -> None:
        """The port of another listener is refused, with the reason on the second line."""
        with socket.create_server(('127.0.0.1', 0)) as other:
            address = f'127.0.0.1:{other.getsockname()[1]}'
            first, second = self.refused('--listen', address)
        self.assertEqual(first, 'crashfs: cannot listen')
        self.assertTrue(second.startswith(f'crashfs: {address}: Address already in use'), second)

    def test_a_trace_at_fault_comes_before_the_address(self) -> None:
        """A trace at fault, and an address that is none: the trace's fault is reported."""
        told = self.refused('--listen', 'nowhere', trace='{}')
        self.assertEqual(told[0], 'crashfs: trace line 1: Syntax')
        self.assertNotIn('crashfs: cannot listen', told)

    def test_publishing_is_printed_if_it_is_asked_for(self) -> None:
        """`published 2 states` is printed with `--verbose`, and else nothing; of a trace with no
        operation `published 1 state`."""
        nowhere = ['--ready', '--workers', '2', '--listen', 'nowhere']
        rows: List[Tuple[str, List[str], List[str]]] = [
            (TRACE, [], []),
            (TRACE, ['--verbose'], ['published 2 states']),
            (STAFF, ['--verbose'], ['published 1 state']),
        ]
        for trace, words, wanted in rows:
            told = self.refused(*nowhere, *words, trace=trace)
            self.assertEqual(told[:-1], [*wanted, 'crashfs: cannot listen'])

    def test_on_a_terminal_publishing_is_printed_too(self) -> None:
        """`published 2 states` without `--verbose`."""
        assert PROGRAM is not None
        own, terminal = os.openpty()
        with open(own, 'rb', 0) as printed, open(terminal, 'wb', 0):
            words = [self.write('trace', TRACE), '--users', self.write('users', USERS), '--ready']
            line = [PROGRAM.path, 'serve', *words, '--listen', 'nowhere']
            with subprocess.Popen(line, stdin=subprocess.DEVNULL, stderr=terminal) as child:
                self.assertEqual(child.wait(PATIENCE), 1)
            self.assertIn(b'published 2 states', printed.read(4096))


if __name__ == '__main__':
    unittest.main()
