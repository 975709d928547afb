"""Replies of 9P2000 as text, read from their bytes."""

from __future__ import annotations

import struct
from typing import Iterator, Tuple

STAT_NAMES = ('name', 'uid', 'gid', 'muid')


class Bytes:
    """What is left of a reply."""

    def __init__(self, left: bytes) -> None:
        self.left = left

    def take(self, count: int) -> bytes:
        taken, self.left = self.left[:count], self.left[count:]
        assert len(taken) == count, 'the reply ends early'
        return taken

    def number(self, width: int) -> int:
        return int.from_bytes(self.take(width), 'little')

    def text(self) -> str:
        return self.take(self.number(2)).decode()

    def qid(self) -> str:
        kind, version, path = self.number(1), self.number(4), self.number(8)
        return f'({kind:02x} {version} {path})'

    def stat(self) -> str:
        """The fields of a stat entry by their names."""
        size = self.number(2)
        assert size <= len(self.left)
        shown = f'type {self.number(2)} dev {self.number(4)} qid {self.qid()}'
        shown += f' mode {self.number(4):o} atime {self.number(4)} mtime {self.number(4)}'
        shown += f' length {self.number(8)}'
        return shown + ''.join(f' {name} {quoted(self.text())}' for name in STAT_NAMES)


def quoted(text: str) -> str:
    return f'"{text}"'


def version(body: Bytes) -> str:
    return f' msize {body.number(4)} version {quoted(body.text())}'


def attach(body: Bytes) -> str:
    return f' qid {body.qid()}'


def error(body: Bytes) -> str:
    return f' ename {quoted(body.text())}'


def nothing(_: Bytes) -> str:
    return ''


def walk(body: Bytes) -> str:
    qids = [body.qid() for _ in range(body.number(2))]
    return f' wqid [{", ".join(qids)}]'


def opened(body: Bytes) -> str:
    return f' qid {body.qid()} iounit {body.number(4)}'


def read(body: Bytes) -> str:
    count = body.number(4)
    body.take(count)
    return f' count {count}'


def written(body: Bytes) -> str:
    return f' count {body.number(4)}'


def stat(body: Bytes) -> str:
    assert body.number(2) == len(body.left)
    return f' {body.stat()}'


KINDS = {
    101: ('Rversion', version),
    105: ('Rattach', attach),
    107: ('Rerror', error),
    109: ('Rflush', nothing),
    111: ('Rwalk', walk),
    113: ('Ropen', opened),
    115: ('Rcreate', opened),
    117: ('Rread', read),
    119: ('Rwrite', written),
    121: ('Rclunk', nothing),
    123: ('Rremove', nothing),
    125: ('Rstat', stat),
    127: ('Rwstat', nothing),
}


def frame(reply: bytes) -> Tuple[int, int, Bytes]:
    """The type, the tag, and what comes then."""
    size, kind, tag = struct.unpack_from('<IBH', reply)
    assert size == len(reply), 'the size is not the number of bytes'
    return kind, tag, Bytes(reply[7:])


def text_of(reply: bytes) -> str:
    """The reply as `--verbose` prints it."""
    kind, tag, body = frame(reply)
    name, fields = KINDS[kind]
    shown = f'{name} tag {tag}{fields(body)}'
    assert body.left == b'', 'bytes are left'
    return shown


def entries(data: bytes) -> Iterator[str]:
    """The names in what a read of a directory gave."""
    while data:
        size = int.from_bytes(data[:2], 'little') + 2
        yield Bytes(data[41:size]).text()
        data = data[size:]


def answer_of(words: str, reply: bytes) -> str:
    """The reply to a message in words: to a `read` with its bytes, to a `list` with the names."""
    kind, _, body = frame(reply)
    if kind != 117 or words.split(' ')[0] not in ('read', 'list'):
        return text_of(reply)
    data = body.take(body.number(4))
    if words.startswith('read'):
        return f"Rread '{data.decode()}'".replace('\0', '\\0')
    return ' '.join([f'Rread {len(data)}', *entries(data)])
