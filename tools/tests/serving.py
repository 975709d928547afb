"""The command `serve` and its clients, for tests: messages in words, over sockets."""

from __future__ import annotations

import socket
import subprocess
import threading
from types import TracebackType
from typing import List, Optional, Sequence, Type

from .support import PATIENCE
from .wire_replies import answer_of
from .wire_words import message_of

ANN, BOB = 'attach 0 ann 0/x', 'attach 0 bob 0/x'
ATTACHED = 'Rattach tag 1 qid (80 0 0)'
VERSION = 'version 8192 9P2000'
# How often a client asks for a state that isn't published yet.
ATTACHES = 100_000


class Server:
    """A server, until it ends by itself: what it printed, and its status."""

    def __init__(self, program: str, words: Sequence[str], is_open: bool = False) -> None:
        """Starts it with these words after `serve`; with is_open its standard input stays open."""
        line = [program, 'serve', *words, '--listen', '127.0.0.1:0']
        given = subprocess.PIPE if is_open else subprocess.DEVNULL
        self.child = subprocess.Popen(
            line, stdin=given, stdout=subprocess.PIPE, stderr=subprocess.PIPE, text=True
        )
        self.lines: List[str] = []
        self.told: List[str] = []
        self.readers = [
            threading.Thread(target=self.tell),
            threading.Thread(target=self.read_errors),
        ]
        self.listening = threading.Event()
        for reader in self.readers:
            reader.start()

    def tell(self) -> None:
        assert self.child.stdout is not None
        for line in self.child.stdout:
            self.lines.append(line)
            self.listening.set()
        self.listening.set()

    def read_errors(self) -> None:
        assert self.child.stderr is not None
        self.told.extend(self.child.stderr)

    @property
    def port(self) -> int:
        assert self.listening.wait(PATIENCE)
        assert self.lines, 'it ended before it listened'
        return int(self.lines[0].rpartition(':')[2])

    def end(self) -> int:
        """Ends its standard input, waits for its end, and returns its status."""
        if self.child.stdin is not None:
            self.child.stdin.close()
        status = self.child.wait(PATIENCE)
        for reader in self.readers:
            reader.join(PATIENCE)
        return status

    @property
    def errors(self) -> str:
        return ''.join(self.told)

    @property
    def runs(self) -> str:
        """What it printed of the runs, after the line of its address."""
        return ''.join(self.lines[1:])

    def __enter__(self) -> Server:
        return self

    def __exit__(
        self,
        kind: Optional[Type[BaseException]],
        value: Optional[BaseException],
        trace: Optional[TracebackType],
    ) -> None:
        self.child.kill()
        self.child.wait()
        for reader in self.readers:
            reader.join(PATIENCE)
        for stream in (self.child.stdin, self.child.stdout, self.child.stderr):
            if stream is not None:
                stream.close()


class Talker:
    """A client of a server: it sends messages in words, and reads each reply."""

    def __init__(self, server: Server, *first: str) -> None:
        self.stream = socket.create_connection(('127.0.0.1', server.port), PATIENCE)
        self.replies = self.stream.makefile('rb')
        for words in (VERSION, *first):
            self.ask(words)

    def ask(self, words: str) -> str:
        """The reply as text."""
        return answer_of(words, self.ask_bytes(message_of(words)))

    def ask_bytes(self, message: bytes) -> bytes:
        self.stream.sendall(message)
        size = self.replies.read(4)
        return size + self.replies.read(int.from_bytes(size, 'little') - 4)

    def attach_at_last(self, words: str) -> str:
        """The reply to an attach as soon as its state is published."""
        for _ in range(ATTACHES):
            reply = self.ask(words)
            if 'A4 ' not in reply:
                return reply
        raise AssertionError('the state is not published')

    def end(self) -> None:
        self.replies.close()
        self.stream.close()
