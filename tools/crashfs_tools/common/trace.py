"""The lines of a trace, by docs/reference/trace.md: what they are, and how they are written."""

from __future__ import annotations

import dataclasses
import json
from dataclasses import dataclass, field
from typing import Any, Dict, Iterator, List, Type, Union

from . import limits
from .sparse import SparseBytes

BLOCKS, ORDERED, JOURNAL = 'blocks', 'ordered', 'journal'
PROFILES = (BLOCKS, ORDERED)
BLOCK_SIZES = (512, 1_024, 2_048, 4_096)
# The version that the recorder writes, unless the session needs a newer one, and the newest one.
WRITTEN_VERSION, NEWEST_VERSION = 3, 4


@dataclass(frozen=True)
class Header:
    """The root's owner, group and mode."""

    owner: str
    group: str
    mode: int


@dataclass(frozen=True)
class Start:
    """A directory (data is None) or file of the start tree. The order of the fields here and below
    is that of the keys in a trace. Version 4 writes SparseBytes in parts; earlier ones write them
    whole."""

    path: str
    owner: str
    group: str
    mode: int
    data: Union[bytes, SparseBytes, None]


@dataclass(frozen=True)
class StartLink:
    """A second path of a file of the start tree."""

    path: str
    source: str


@dataclass(frozen=True)
class StartSymlink:
    """A symbolic link of the start tree; link is its target."""

    path: str
    owner: str
    group: str
    link: str


@dataclass(frozen=True)
class Creat:
    """A file is made."""

    path: str
    owner: str
    group: str
    mode: int


@dataclass(frozen=True)
class Mkdir:
    """A directory is made."""

    path: str
    owner: str
    group: str
    mode: int


@dataclass(frozen=True)
class Unlink:
    """A name of a file, or a symbolic link, is removed."""

    path: str


@dataclass(frozen=True)
class Rmdir:
    """An empty directory is removed."""

    path: str


@dataclass(frozen=True)
class Rename:
    """What is at a path gets another path, and replaces what is there."""

    source: str
    target: str


@dataclass(frozen=True)
class Link:
    """A file gets another name."""

    source: str
    target: str


@dataclass(frozen=True)
class Symlink:
    """A symbolic link is made; link is its target."""

    path: str
    owner: str
    group: str
    link: str


@dataclass(frozen=True)
class Write:
    """Bytes are written to a file, which grows if they end past its end."""

    path: str
    offset: int
    data: bytes


@dataclass(frozen=True)
class Truncate:
    """A file gets a length."""

    path: str
    length: int


@dataclass(frozen=True)
class Chmod:
    """A file or directory gets a mode."""

    path: str
    mode: int


@dataclass(frozen=True)
class Chown:
    """A file or directory gets an owner and a group."""

    path: str
    owner: str
    group: str


@dataclass(frozen=True)
class Fsync:
    """A file or directory is synced, with its mode and owner."""

    path: str


@dataclass(frozen=True)
class Fdatasync:
    """All bytes of a file are synced, with its size, but not its mode and owner."""

    path: str


@dataclass(frozen=True)
class FsyncRange:
    """A part of a file's bytes is synced, with its size."""

    path: str
    offset: int
    length: int


@dataclass(frozen=True)
class Sync:
    """All is synced."""


@dataclass(frozen=True)
class Say:
    """A program acknowledges a line."""

    text: str

    @staticmethod
    def from_line(line: bytes) -> Say:
        """The Say of a line, or of a piece of one, that a program printed. Bytes that aren't UTF-8
        become replacement characters; then the text is cut to SAY_BYTES bytes, without a character
        that this would split. Line feeds stay."""
        text = line.decode('utf-8', 'replace').encode()[: limits.SAY_BYTES]
        return Say(text.decode('utf-8', 'ignore'))


Operation = Union[
    Creat,
    Mkdir,
    Unlink,
    Rmdir,
    Rename,
    Link,
    Symlink,
    Write,
    Truncate,
    Chmod,
    Chown,
    Fsync,
    Fdatasync,
    FsyncRange,
    Sync,
    Say,
]
StartLine = Union[Start, StartLink, StartSymlink]

KINDS: Dict[str, Type[Any]] = {
    'creat': Creat,
    'mkdir': Mkdir,
    'unlink': Unlink,
    'rmdir': Rmdir,
    'rename': Rename,
    'link': Link,
    'symlink': Symlink,
    'write': Write,
    'truncate': Truncate,
    'chmod': Chmod,
    'chown': Chown,
    'fsync': Fsync,
    'fdatasync': Fdatasync,
    'fsync_range': FsyncRange,
    'sync': Sync,
    'say': Say,
}
# The first version that has a kind of line, where that isn't version 1.
SINCE: Dict[Type[Any], int] = {
    **{Chmod: 2, Chown: 2, Link: 3, FsyncRange: 3, StartLink: 3},
    **{Fdatasync: 4, Symlink: 4, StartSymlink: 4},
}
# Smaller files of the start tree are written whole; a part takes room for so many bytes more.
LEAST_BYTES_IN_PARTS, PART_OVERHEAD = 1_024, 16
KIND_OF = {line_class: kind for kind, line_class in KINDS.items()}
# The keys of a directory in the start tree, which has no bytes.
DIRECTORY_KEYS = ('path', 'owner', 'group', 'mode')
# The keys of a line that have another name in Python.
KEYS = {'source': 'from', 'target': 'to', 'link': 'target'}


@dataclass
class Trace:
    """A whole trace. One of version 1 has no profile: its directory operations are ordered as in
    `blocks`. notes has the notes of operations, by their places from 0; versions before 3 write
    none. Whether an operation is possible isn't checked here."""

    header: Header
    start: List[StartLine] = field(default_factory=list)
    operations: List[Operation] = field(default_factory=list)
    version: int = WRITTEN_VERSION
    profile: str = BLOCKS
    block: int = BLOCK_SIZES[-1]
    notes: Dict[int, str] = field(default_factory=dict)

    def lines(self) -> Iterator[str]:
        """The lines of the trace as text, the header first, without their line feeds. KeyError for
        an operation of an unknown class. Whether the version has each line isn't checked."""
        values: Dict[str, Any] = {'trace': self.version}
        if self.version >= 2:
            values['profile'] = self.profile
        if self.version >= 3:
            values['block'] = self.block
        yield json_line({**values, **line_values(self.header)})
        yield from (json_start_line(entry, self.version) for entry in self.start)
        for place, operation in enumerate(self.operations):
            yield json_line(self.operation_values(place, operation))

    def operation_values(self, place: int, operation: Operation) -> Dict[str, Any]:
        """The keys and values of the line of an operation, which is at a place from 0. Before
        version 4 an fdatasync is written as an fsync_range of the whole file; before version 3
        notes are left out."""
        if self.version < SINCE[Fdatasync] and isinstance(operation, Fdatasync):
            operation = FsyncRange(operation.path, 0, limits.FILE_BYTES)
        values = {'op': KIND_OF[type(operation)], **line_values(operation, self.version)}
        if self.version >= 3 and place in self.notes:
            values['note'] = self.notes[place]
        return values

    def line_number(self, place: int) -> int:
        """The number, from 1, of the line of the operation at a place from 0."""
        # Line 1 is the header.
        return 2 + len(self.start) + place


def json_start_line(entry: StartLine, version: int) -> str:
    """An entry of the start tree as a line of a trace of this version, without its line feed. In
    version 4 a file is written in parts if that takes less room."""
    values = line_values(with_parts_if_shorter(entry) if version >= 4 else entry, version)
    if isinstance(entry, StartLink):
        return json_line({'start': 'link', **values})
    if isinstance(entry, StartSymlink):
        return json_line({'start': 'symlink', **values})
    if entry.data is None:
        return json_line({'start': 'dir', **{key: values[key] for key in DIRECTORY_KEYS}})
    return json_line({'start': 'file', **values})


def with_parts_if_shorter(entry: StartLine) -> StartLine:
    """The same entry of the start tree, or, if its bytes would take less room in parts, a copy that
    has them as SparseBytes. Files of less than LEAST_BYTES_IN_PARTS, and text that people can read,
    stay as they are."""
    if not isinstance(entry, Start) or not isinstance(entry.data, bytes):
        return entry
    if len(entry.data) < LEAST_BYTES_IN_PARTS or readable_text(entry.data):
        return entry
    sparse = SparseBytes.copy_of(entry.data)
    size = sum(len(part) + PART_OVERHEAD for _, part in sparse.parts())
    return dataclasses.replace(entry, data=sparse) if size < len(entry.data) else entry


def line_values(item: Any, version: int = 1) -> Dict[str, Any]:
    """The keys and values of an operation, a start line or a header, for a line of this version,
    without the key that says which of these it is. They are the attributes, in their order; KEYS
    has the keys with another name."""
    values: Dict[str, Any] = {}
    for attribute in dataclasses.fields(item):
        value = getattr(item, attribute.name)
        if attribute.name == 'data':
            values.update(bytes_values(value or b'', version))
        else:
            key = KEYS.get(attribute.name, attribute.name)
            values[key] = f'{value:03o}' if attribute.name == 'mode' else value
    return values


def bytes_values(data: Union[bytes, SparseBytes], version: int) -> Dict[str, Any]:
    """The keys and values of bytes in a line of this version: since version 3 `text`, if people can
    read it; else `bytes`, in hexadecimal digits, also for no bytes. Since version 4 SparseBytes are
    `length` and `parts`; in earlier versions they are written whole."""
    if isinstance(data, SparseBytes):
        if version >= 4:
            parts = [{'at': offset, **bytes_values(part, version)} for offset, part in data.parts()]
            return {'length': len(data), 'parts': parts}
        data = bytes(data)
    if version >= 3:
        text = readable_text(data)
        if text:
            return {'text': text}
    return {'bytes': data.hex()}


def readable_text(data: bytes) -> str:
    """Bytes as a text that people can read: printable characters and line feeds. An empty text if
    they aren't such a text, or if there are none."""
    try:
        text = data.decode('utf-8')
    except UnicodeDecodeError:
        return ''
    return text if text.replace('\n', '').isprintable() else ''


def json_line(fields: Dict[str, Any]) -> str:
    """A line of a trace from its keys and values: JSON without blanks between them."""
    return json.dumps(fields, separators=(',', ':'), ensure_ascii=False)
