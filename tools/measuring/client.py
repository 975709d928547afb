"""A client of 9P2000, with the few messages that make a server use its memory."""

from __future__ import annotations

import socket
import struct
from typing import List

NO_FID = 0xFFFF_FFFF
NO_TAG = 0xFFFF
VERSION = '9P2000'
TVERSION, TATTACH, TWALK, TOPEN, TWRITE = 100, 104, 110, 112, 118
RERROR = 107
READ_WRITE = 2
# The largest message that the client can take.
MESSAGE_BYTES = 65_536
# How many bytes the size of messages has in a reply, and the length before a text.
NUMBER_BYTES, LENGTH_BYTES = 4, 2
# The user who attaches, one of examples/users.
USER = 'ann'


class ServerRefused(Exception):
    """Why the server didn't do what was asked: the text of its Rerror, or another such text."""


def text_field(text: str) -> bytes:
    """A text as a message of 9P has it: its length in two bytes, then its bytes in UTF-8.
    struct.error if it has more than 65,535 bytes."""
    text_bytes = text.encode()
    return struct.pack('<H', len(text_bytes)) + text_bytes


def message_bytes(kind: int, fields: bytes, tag: int = 1) -> bytes:
    """The bytes of a message of 9P: its size, kind and tag, then its fields. All requests but the
    first have the tag 1: see Client."""
    return struct.pack('<IBH', len(fields) + 7, kind, tag) + fields


class Client:
    """A connection to a server. All requests but the first have one tag, so each call waits for the
    replies to all that it sends. After an OSError the connection can't be used any more; after
    ServerRefused it can. The caller must call close()."""

    def __init__(self, address: str) -> None:
        """Connects to HOST:PORT, and agrees on VERSION with the server. OSError if nobody listens
        there, or if the connection ends; ServerRefused if the server answers with another version
        or an Rerror. After an error the connection is closed."""
        host, port = address.rsplit(':', 1)
        self.stream = socket.create_connection((host, int(port)))
        self.replies = self.stream.makefile('rb')
        try:
            fields = struct.pack('<I', MESSAGE_BYTES) + text_field(VERSION)
            reply_fields = self.ask(message_bytes(TVERSION, fields, NO_TAG))
            version_field = reply_fields[NUMBER_BYTES:]
            if version_field != text_field(VERSION):
                version = version_field[LENGTH_BYTES:]
                raise ServerRefused(f'the server speaks {version!r}, not {VERSION}')
        except BaseException:
            self.close()
            raise

    def wait_for_reply(self) -> bytes:
        """Waits for the next reply, and returns its fields, whatever its kind and tag are.
        ServerRefused if it is an Rerror, OSError if the connection ends before the whole reply has
        come."""
        size, kind, _ = struct.unpack('<IBH', self.read_whole(7))
        fields = self.read_whole(size - 7)
        if kind == RERROR:
            raise ServerRefused(fields[LENGTH_BYTES:].decode(errors='replace'))
        return fields

    def read_whole(self, count: int) -> bytes:
        """Waits for `count` bytes of the replies, and returns them. OSError if the connection ends
        before that."""
        data = self.replies.read(count)
        if len(data) < count:
            raise OSError('the server has ended the connection')
        return data

    def ask(self, request: bytes) -> bytes:
        """Sends a request, waits for its reply, and returns the reply's fields. ServerRefused if
        the reply is an Rerror, OSError if the connection ends."""
        self.stream.sendall(request)
        return self.wait_for_reply()

    def ask_all(self, requests: List[bytes]) -> int:
        """Sends all requests before it waits for their replies, and returns how many were granted:
        an Rerror raises nothing here. The requests must fit the buffers of both ends, since the
        server may wait until its replies are read. OSError if the connection ends."""
        self.stream.sendall(b''.join(requests))
        granted_count = 0
        for _ in requests:
            try:
                self.wait_for_reply()
                granted_count += 1
            except ServerRefused:
                pass
        return granted_count

    def attach(self, fid: int, run: str) -> None:
        """Attaches USER to a run, given as STATE/RUN; the fid is the run's root directory then.
        ServerRefused if the server refuses it, as for a fid that is in use; OSError if the
        connection ends."""
        fields = struct.pack('<II', fid, NO_FID) + text_field(USER) + text_field(run)
        self.ask(message_bytes(TATTACH, fields))

    def open(self, fid: int, newfid: int, name: str) -> None:
        """Opens the file of this name in the directory of `fid`, for reading and writing, as
        `newfid`. ServerRefused if the server refuses the walk or the open; after a refused open
        `newfid` is the file, but isn't open. OSError if the connection ends."""
        self.ask(message_bytes(TWALK, struct.pack('<IIH', fid, newfid, 1) + text_field(name)))
        self.ask(message_bytes(TOPEN, struct.pack('<IB', newfid, READ_WRITE)))

    def close(self) -> None:
        """Ends the connection, and with it all fids of this client."""
        self.replies.close()
        self.stream.close()


def write_request(fid: int, data: bytes) -> bytes:
    """The message that writes bytes at the beginning of an open file."""
    return message_bytes(TWRITE, struct.pack('<IQI', fid, 0, len(data)) + data)
