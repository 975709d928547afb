"""The same dialogue in several runs and by several commands: what others do in another run changes
no reply, and `serve` replies the same bytes as `script`."""

from __future__ import annotations

import socket
import subprocess
import unittest
from contextlib import contextmanager
from typing import Iterator, List, NamedTuple, Sequence

from crashfs_tools.common.program import Crashfs

from .case_file import CASES
from .case_runs import Runner
from .support import EXAMPLES, PATIENCE, InFolder, needed
from .wire_replies import text_of
from .wire_words import message_of

PROGRAM = Crashfs.find(None)
needs_program = needed(PROGRAM is not None, 'crashfs is not built')
LINES = (CASES.parent / 'each-message').read_text(encoding='utf-8').splitlines()
MESSAGES = [words for words in LINES if words != 'hangup']


class Client(NamedTuple):
    """A connection, its user, and the run that it attaches to."""

    conn: int
    user: str
    run: str

    def asked(self, words: str) -> str:
        """What it sends by a line: an attach goes on with its user and its run."""
        return f'{words} {self.user} {self.run}' if words == 'attach 0' else words

    def line(self, words: str) -> str:
        """The same as a line of a script."""
        told = 'hangup' if words == 'hangup' else message_of(self.asked(words)).hex()
        return f'{self.conn} 7 {told}'


ALONE = [Client(0, 'ann', '0/x'), Client(1, 'bob', '0/x')]
BESIDE = [Client(2, 'ann', '0/y'), ALONE[0], Client(3, 'cat', '0/y'), ALONE[1]]
AMONG = [Client(2, 'ann', '0/x'), ALONE[0], Client(3, 'cat', '0/x'), ALONE[1]]
IN_TURN = [*ALONE, Client(2, 'cat', '0/y'), Client(3, 'dan', '0/y')]
# The types of all replies but that of Rauth, which no server here sends.
ALL_REPLIES = {
    f'R{name}'
    for name in (
        'version attach error flush walk open create read write clunk remove stat wstat'.split()
    )
}


@needs_program
class Dialogues(InFolder):
    def setUp(self) -> None:
        super().setUp()
        assert PROGRAM is not None
        self.program = PROGRAM.path
        self.runner = Runner(self.folder, self.program)

    def replies(self, clients: Sequence[Client]) -> List[str]:
        """The replies to connections 0 and 1, if all clients do each line, in turn."""
        lines = [client.line(words) for words in LINES for client in clients]
        printed = self.runner.replies(lines, {})
        return [line for line in printed if line[:2] in ('0 ', '1 ')]

    def test_a_group_gets_the_same_replies_without_the_other(self) -> None:
        """ann and bob share `0/x`, send 35 messages each, of every kind, and hang up. ann and cat
        do the same in `0/y`, each before one of them: all 72 replies to the first two are the same
        as without the others."""
        alone = self.replies(ALONE)
        self.assertEqual(len(alone), 72)
        self.assertEqual(self.replies(BESIDE), alone)

    def test_a_group_sees_what_others_do_in_its_run(self) -> None:
        """If the others do it in `0/x`, some of the 72 are different: the file that ann creates is
        there already."""
        self.assertNotEqual(self.replies(AMONG), self.replies(ALONE))

    def test_a_server_replies_as_a_script_does(self) -> None:
        """ann, bob, cat and dan, whom nobody knows, each have the dialogue with a script, and then
        with a server: but for the times, which are the machine's, the replies are the same. All
        calls are among them, and all types of replies but Rauth."""
        lines = [client.line(words) for client in IN_TURN for words in [*MESSAGES, 'hangup']]
        printed = self.runner.replies(lines, {})
        scripted = [bytes.fromhex(line[2:]) for line in printed if not line.endswith('closed')]
        with self.server(len(IN_TURN)) as address:
            served = [reply for client in IN_TURN for reply in exchange(client, address)]
        words = MESSAGES * len(IN_TURN)
        self.assertEqual(list(map(timeless, words, served)), list(map(timeless, words, scripted)))
        self.assertEqual({text_of(reply).split()[0] for reply in served}, ALL_REPLIES)

    @contextmanager
    def server(self, connections: int) -> Iterator[int]:
        """The port of a server of the start tree that ends after so many connections."""
        words = ['serve', str(EXAMPLES / 'start.trace'), '--users', str(EXAMPLES / 'users')]
        words += ['--ready', '--listen', '127.0.0.1:0', '--connections', str(connections)]
        with subprocess.Popen([self.program, *words], stdout=subprocess.PIPE, text=True) as child:
            assert child.stdout is not None
            told = child.stdout.readline()
            try:
                yield int(told.rpartition(':')[2])
                self.assertEqual(child.wait(PATIENCE), 0)
            finally:
                child.kill()


def exchange(client: Client, port: int) -> Iterator[bytes]:
    """What a server replies to the client, message by message."""
    with socket.create_connection(('127.0.0.1', port), PATIENCE) as stream:
        with stream.makefile('rb') as replies:
            for words in MESSAGES:
                stream.sendall(message_of(client.asked(words)))
                size = replies.read(4)
                yield size + replies.read(int.from_bytes(size, 'little') - 4)


def entries_in(words: str, reply: bytes) -> Iterator[int]:
    """The places of the stat entries in a reply: that of a stat, and those that a list gives."""
    if reply[4] == 125:
        yield 9
    elif words.startswith('list') and reply[4] == 117:
        place = 11
        while place < len(reply):
            yield place
            place += 2 + int.from_bytes(reply[place : place + 2], 'little')


def timeless(words: str, reply: bytes) -> bytes:
    """A reply whose times are 0 or 1: whether a file was made or changed in the run."""
    timed = bytearray(reply)
    for place in entries_in(words, reply):
        for time in (slice(place + 25, place + 29), slice(place + 29, place + 33)):
            timed[time] = int(any(timed[time])).to_bytes(4, 'little')
    return bytes(timed)


if __name__ == '__main__':
    unittest.main()
