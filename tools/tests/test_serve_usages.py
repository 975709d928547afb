"""The command `serve`, as people start and stop it."""


import signal
import socket
import struct
import subprocess
import unittest
from contextlib import contextmanager
from typing import Iterator, List, Tuple

from .support import PATIENCE, InFolder
from .test_wrong_usages import FOUND, STORE, needs_program


class Served(InFolder):
    """The command `serve` of the program."""

    @contextmanager
    def serving(self, *words: str) -> Iterator[Tuple[subprocess.Popen[str], int]]:
        """A server of the store's trace, and its port. It ends with its standard input."""
        assert FOUND is not None
        with subprocess.Popen(
            [FOUND.path, 'serve', STORE, '--again', '--ready', '--listen', '127.0.0.1:0', *words],
            stdin=subprocess.PIPE,
            text=True,
            stdout=subprocess.PIPE,
            stderr=subprocess.PIPE,
        ) as child:
            assert child.stdout is not None and child.stdin is not None
            yield child, int(child.stdout.readline().rpartition(':')[2])
            child.stdin.close()
            child.wait(PATIENCE)

    @staticmethod
    def replies(port: int, *requests: bytes) -> List[int]:
        """The type of the reply to each request."""
        with socket.create_connection(('127.0.0.1', port), PATIENCE) as client:
            found = []
            for request in requests:
                client.sendall(struct.pack('<I', len(request) + 4) + request)
                size = struct.unpack('<I', client.recv(4, socket.MSG_WAITALL))[0]
                found.append(client.recv(size - 4, socket.MSG_WAITALL)[0])
            return found

    @needs_program
    def test_serve_ends_with_its_input_and_has_defaults(self) -> None:
        with self.serving() as (child, _):
            pass
        assert child.stderr is not None
        self.assertEqual(child.returncode, 0)

    @needs_program
    def test_without_users_the_owners_of_the_trace_attach(self) -> None:
        version = b'\x64\xff\xff' + struct.pack('<IH', 8192, 6) + b'9P2000'
        with self.serving() as (_, port):
            for user, reply in ((b'kv', 105), (b'nobody', 107)):
                attach = (
                    b'\x68\0\0'
                    + struct.pack('<II', 0, 0xFFFFFFFF)
                    + struct.pack('<H', len(user))
                    + user
                    + b'\x03\x000/x'
                )
                self.assertEqual(self.replies(port, version, attach), [101, reply], user)

    @needs_program
    def test_a_client_of_another_protocol_gets_a_line(self) -> None:
        with self.serving() as (child, port):
            with socket.create_connection(('127.0.0.1', port), PATIENCE) as client:
                client.sendall(b'GET / HTTP/1.0\r\n\r\n')
                self.assertEqual(client.recv(1), b'')
            assert child.stderr is not None
            self.assertEqual(
                child.stderr.readline(),
                "crashfs: connection 0 is no 9P2000: " "a message's size is above 65536\n",
            )

    @needs_program
    def test_signals_end_it_at_once(self) -> None:
        for number in (signal.SIGTERM, signal.SIGINT):
            if signal.getsignal(number) is signal.SIG_IGN:
                continue  # as a shell starts what runs in its background
            with self.serving() as (child, _):
                child.send_signal(number)
                self.assertEqual(child.wait(PATIENCE), -number)


if __name__ == '__main__':
    unittest.main()
