"""A key-value store in numbered logs, with three planted bugs.

The store appends to one open log, such as `3.open`. A full log is sealed: it is renamed to `3.log`,
and never changes. Compaction replaces all sealed logs by one. The header of a log says how many
bytes it has; zeros follow its last record.

Each bug is a sync that is left out, on a path that few sessions take. EXAMPLE_MENDED has the words
of the bugs that are mended: `snapshot`, `compact` and `grow`.
"""

from __future__ import annotations

import json
import os
import re
import struct
import zlib
from pathlib import Path
from typing import Dict, Iterator, List, NamedTuple, Optional, Tuple

MENDED = os.environ.get('EXAMPLE_MENDED', '').split()
LOG_BYTES = 512
HEADER = struct.Struct('<4sI')
MAGIC = b'LOG1'
RECORD = struct.Struct('<II')
MERGED = 'merged'


class Damaged(Exception):
    """A log isn't as the store leaves it."""


class Value(NamedTuple):
    """What a key has, and the number of the put that stored it."""

    number: int
    text: str


class OpenLog:
    """A new log, to which records are appended."""

    def __init__(self, number: int) -> None:
        self.number = number
        self.file = os.open(open_path(number), os.O_RDWR | os.O_CREAT, 0o644)
        self.end = HEADER.size
        self.capacity = 0
        self.set_capacity(LOG_BYTES, is_synced=True)
        os.fsync(self.file)
        sync_directory()

    def set_capacity(self, capacity: int, is_synced: bool) -> None:
        """Makes the log larger, and says so in its header. The header must not be durable before
        the size is, so the size is synced between them."""
        os.ftruncate(self.file, capacity)
        if is_synced:
            os.fsync(self.file)
        os.pwrite(self.file, HEADER.pack(MAGIC, capacity), 0)
        self.capacity = capacity

    def has_room(self, record: bytes) -> bool:
        """Whether the record fits."""
        return self.end + len(record) <= self.capacity

    def append(self, record: bytes) -> None:
        """Writes the record durably. A record that is larger than a log makes the log grow."""
        if not self.has_room(record):
            self.set_capacity(self.end + len(record), is_synced='grow' in MENDED)
        os.pwrite(self.file, record, self.end)
        os.fsync(self.file)
        self.end += len(record)

    def seal(self) -> None:
        """Gives the log the name of a sealed one, and closes it. The directory isn't synced: no
        value is lost with that name, since a log that was left open is read as well."""
        os.rename(open_path(self.number), sealed_path(self.number))
        os.close(self.file)


class Store:
    """A new store in the current directory."""

    def __init__(self) -> None:
        self.log: Optional[OpenLog] = OpenLog(1)
        self.sealed: List[int] = []
        self.values: Dict[str, Value] = {}

    def put(self, key: str, value: Value) -> None:
        """Stores a value; it is durable on return."""
        record = record_of(key, value)
        if self.log is not None and not self.log.has_room(record):
            self.seal()
            if self.has_many_old_records():
                self.compact()
        if self.log is None:
            self.log = OpenLog(self.sealed[-1] + 1)
        self.log.append(record)
        self.values[key] = value

    def snapshot(self) -> int:
        """Seals the open log, so that all logs can be copied. The snapshot's name is the number of
        the last one. A new log is opened by the next put."""
        if self.log is not None:
            self.seal()
        if 'snapshot' in MENDED:
            sync_directory()
        return self.sealed[-1]

    def seal(self) -> None:
        """Seals the open log."""
        assert self.log is not None
        self.log.seal()
        self.sealed.append(self.log.number)
        self.log = None

    def merged_records(self) -> bytes:
        """A record of the last value of each key."""
        return b''.join(record_of(key, value) for key, value in self.values.items())

    def has_many_old_records(self) -> bool:
        """Whether the last values take at most a quarter of the sealed logs."""
        size = sum(os.path.getsize(sealed_path(number)) for number in self.sealed)
        return (HEADER.size + len(self.merged_records())) * 4 <= size

    def compact(self) -> None:
        """Replaces the sealed logs by one with the last value of each key, while no log is open.
        The new one must be durable under its name before the others are removed."""
        records = self.merged_records()
        with open(MERGED, 'wb') as file:
            file.write(HEADER.pack(MAGIC, HEADER.size + len(records)) + records)
            file.flush()
            os.fsync(file.fileno())
        os.rename(MERGED, sealed_path(self.sealed[-1]))
        if 'compact' in MENDED:
            sync_directory()
        for number in self.sealed[:-1]:
            os.unlink(sealed_path(number))
        self.sealed = self.sealed[-1:]


def recovered() -> Tuple[Dict[str, Value], int]:
    """The values of the store in the current directory, and the number of its last sealed log, or
    0. Damaged if a log isn't as the store leaves it."""
    values: Dict[str, Value] = {}
    newest = 0
    for path in Path().iterdir():
        match = re.fullmatch(r'(\d+)\.(open|log)', path.name)
        if match is None:
            continue
        is_sealed = match[2] == 'log'
        newest = max(newest, int(match[1]) * is_sealed)
        for key, value in records_in(path, is_sealed):
            if key not in values or values[key].number < value.number:
                values[key] = value
    return values, newest


def records_in(path: Path, is_sealed: bool) -> Iterator[Tuple[str, Value]]:
    """The records of a log. An open log may end with a record that a crash has torn."""
    content = path.read_bytes()
    magic, capacity = HEADER.unpack(content[: HEADER.size].ljust(HEADER.size, b'\0'))
    if magic != MAGIC:
        if is_sealed or magic.strip(b'\0'):
            raise Damaged(f'{path.name} has no header')
        return
    if capacity != len(content) and (is_sealed or capacity > len(content)):
        raise Damaged(f'{path.name} has {len(content)} bytes, its header says {capacity}')
    end = HEADER.size
    while end + RECORD.size <= len(content):
        length, checksum = RECORD.unpack_from(content, end)
        body = content[end + RECORD.size : end + RECORD.size + length]
        if not length:
            return
        if len(body) < length or zlib.crc32(body) != checksum:
            if is_sealed:
                raise Damaged(f'{path.name} has a damaged record')
            return
        fields = json.loads(body)
        yield fields['key'], Value(fields['number'], fields['text'])
        end += RECORD.size + length


def record_of(key: str, value: Value) -> bytes:
    """A record as it is in a log."""
    body = json.dumps({'key': key, **value._asdict()}).encode()
    return RECORD.pack(len(body), zlib.crc32(body)) + body


def open_path(number: int) -> str:
    """The name of a log that is open."""
    return f'{number}.open'


def sealed_path(number: int) -> str:
    """The name of a log that is sealed."""
    return f'{number}.log'


def sync_directory() -> None:
    """Makes the names in the current directory durable."""
    directory = os.open('.', os.O_RDONLY)
    os.fsync(directory)
    os.close(directory)
