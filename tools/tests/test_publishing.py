"""The command `serve` of the program while states are still published."""

from __future__ import annotations

import os
import select
import socket
import subprocess
import termios
import time
from contextlib import contextmanager
from typing import IO, Iterator, Tuple

from crashfs_tools.common.program import Crashfs
from measuring.client import Client, ServerRefused, write_request

from .support import PATIENCE, InFolder, needed

FOUND = Crashfs.find(None)

needs_program = needed(FOUND is not None, 'crashfs is not built')

# A trace of so many new files has 1,276 states with holes: progress is printed once.
FILES = 50
LAST = 1_275


def trace() -> str:
    rights = '"owner":"ann","group":"ann","mode":"644"}\n'
    return (
        '{"trace":1,"owner":"ann","group":"ann","mode":"755"}\n'
        '{"start":"file","path":"/f","bytes":"68656c6c6f",'
        + rights
        + ''.join(f'{{"op":"creat","path":"/{number}",' + rights for number in range(FILES))
    )


def attached(client: Client, fid: int, name: str) -> None:
    """Attaches to a run once its state is published."""
    end = time.monotonic() + PATIENCE
    while True:
        try:
            return client.attach(fid, name)
        except ServerRefused as refused:
            if str(refused) != 'A4 state not published' or time.monotonic() > end:
                raise


def line(file: IO[bytes], seconds: float = PATIENCE) -> bytes:
    """The next line; none if nothing comes for so long."""
    ready, _, _ = select.select([file], [], [], seconds)
    return file.readline() if ready else b''


class Publishing(InFolder):
    """Standard error is a terminal that is stopped, as by Ctrl-S. The only worker prints there how
    many states are published before it makes state 1,024: it waits until the terminal goes on, and
    no later state is published before."""

    def setUp(self) -> None:
        super().setUp()
        self.addCleanup(socket.setdefaulttimeout, socket.getdefaulttimeout())
        socket.setdefaulttimeout(PATIENCE)

    @contextmanager
    def stopped(self, *words: str) -> Iterator[Tuple[subprocess.Popen[bytes], IO[bytes], int]]:
        """A server that can't publish its last states, what it prints on its terminal, and that."""
        assert FOUND is not None
        own, terminal = os.openpty()
        with open(own, 'rb', 0) as printed, open(terminal, 'wb', 0):
            termios.tcflow(terminal, termios.TCOOFF)
            with subprocess.Popen(
                [
                    FOUND.path,
                    'serve',
                    self.write('t', trace()),
                    '--holes',
                    '--workers',
                    '1',
                    '--connections',
                    '1',
                    '--listen',
                    '127.0.0.1:0',
                    *words,
                ],
                stdin=subprocess.DEVNULL,
                stdout=subprocess.PIPE,
                stderr=terminal,
            ) as child:
                try:
                    yield child, printed, terminal
                finally:
                    child.kill()

    def listening(self, child: subprocess.Popen[bytes]) -> Client:
        """A client of the server, once it listens."""
        assert child.stdout is not None
        told = line(child.stdout)
        self.assertRegex(told, b'^listening 127[.]0[.]0[.]1:')
        client = Client(told.decode().split()[1])
        self.addCleanup(client.close)
        return client

    @needs_program
    def test_a_client_is_served_while_states_are_published(self) -> None:
        with self.stopped() as (child, printed, terminal):
            client = self.listening(child)
            attached(client, 0, '0/x')
            client.open(0, 1, 'f')
            client.ask(write_request(1, b'HI'))
            with self.assertRaisesRegex(ServerRefused, '^A4 state not published$'):
                client.attach(2, f'{LAST}/x')
            termios.tcflow(terminal, termios.TCOON)
            self.assertRegex(line(printed), rb'^published \d+ of 1276\r\n')
            attached(client, 2, f'{LAST}/x')
            client.close()
            out, _ = child.communicate(timeout=PATIENCE)
            self.assertEqual(
                (child.returncode, out),
                (0, b'run 0/x entries 5 audit ok\n' b'run 1275/x entries 1 audit ok\n'),
            )

    @needs_program
    def test_with_ready_it_listens_once_all_states_are_published(self) -> None:
        with self.stopped('--ready') as (child, _, terminal):
            assert child.stdout is not None
            self.assertEqual(line(child.stdout, 1), b'')
            termios.tcflow(terminal, termios.TCOON)
            client = self.listening(child)
            client.attach(0, f'{LAST}/x')
            client.close()
            child.communicate(timeout=PATIENCE)
            self.assertEqual(child.returncode, 0)
