"""Trees that are on disks after crashes: read, compared by a digest, and each kept once."""

from __future__ import annotations

import hashlib
import os
import stat
from dataclasses import dataclass
from itertools import chain
from typing import Dict, Iterable, Iterator, List, NamedTuple, Tuple

from crashfs_tools.common.entry import Entries, Entry
from crashfs_tools.common.file_bytes import read_file_bytes
from crashfs_tools.common.sparse import LARGE_BYTES, SparseBytes

from .flushes import FlushKind
from .moments import Moment
from .owners import Owners


class Crash(NamedTuple):
    """A power failure: its moment, and what the kernel was made to write before it."""

    moment: Moment
    flush_kind: FlushKind

    @property
    def rank(self) -> Tuple[int, int]:
        """A key for sorting: crashes with the least forced writes come first, and of these the
        earliest."""
        return self.flush_kind.rank, self.moment.operation_count


@dataclass
class Disk:
    """A tree that crashes left on a file system, its digest, and all the crashes that left it."""

    tree: Entries
    digest: str
    crashes: List[Crash]

    @property
    def line_counts(self) -> List[int]:
        """Each number of lines that may be acknowledged when the disk has this tree, by any of its
        crashes; ascending."""
        return sorted({count for crash in self.crashes for count in crash.moment.line_counts})


def read_tree(top: str, owners: Owners) -> Entries:
    """Reads the tree below a directory, which is `/` in it, sorted by path. Symbolic links aren't
    followed. A directory that can't be listed counts as empty; any other error is an OSError."""
    tree: Entries = {'/': read_entry(top, owners)}
    for path in paths_below(top):
        tree[path] = read_entry(top + path, owners)
    return dict(sorted(tree.items()))


def paths_below(top: str) -> Iterator[str]:
    """The paths of all that is below a directory, relative to it and with a slash in front; `top`
    must not end with a slash. A directory that can't be listed counts as empty."""
    for folder, folder_names, file_names in os.walk(top):
        yield from (f'{folder[len(top) :]}/{name}' for name in (*folder_names, *file_names))


def read_entry(path: str, owners: Owners) -> Entry:
    """Reads a directory, a file with its bytes, or a symbolic link with its target. Of its mode
    only the permission bits are kept. The name of a user or group that the trace doesn't name is
    the digits of its number. OSError if something can't be read."""
    status = os.lstat(path)
    user, group = owners.users.name(status.st_uid), owners.groups.name(status.st_gid)
    entry = Entry(user, group, status.st_mode & 0o777, None)
    if stat.S_ISLNK(status.st_mode):
        entry.link = os.readlink(path)
    elif not stat.S_ISDIR(status.st_mode):
        descriptor = os.open(path, os.O_RDONLY | os.O_NOFOLLOW | os.O_CLOEXEC)
        try:
            entry.data = read_file_bytes(descriptor)
        finally:
            os.close(descriptor)
    return entry


def digest_of(tree: Entries) -> str:
    """A digest of a tree: equal trees have equal digests, whatever the order of their paths is and
    however their bytes are kept; different trees have different ones."""
    digest = hashlib.sha256()
    for piece in chain.from_iterable(digested_pieces(path, tree[path]) for path in sorted(tree)):
        digest.update(len(piece).to_bytes(8, 'little'))
        digest.update(piece)
    return digest.hexdigest()


def digested_pieces(path: str, entry: Entry) -> Iterator[bytes]:
    """The pieces of an entry that a digest is made from: its path, its rights and its content. The
    content of a directory is empty, that of a link is an l and its target, that of a small file an
    f and its bytes. That of a large file is an s and its length, and then each page that isn't all
    zeros, after its number: zeros may be kept as holes or not."""
    yield os.fsencode(path)
    yield f'{entry.owner}\0{entry.group}\0{entry.mode:o}'.encode('utf-8', 'surrogateescape')
    if entry.link is not None:
        yield b'l' + os.fsencode(entry.link)
    elif entry.data is None:
        yield b''
    elif len(entry.data) < LARGE_BYTES:
        yield b'f' + bytes(entry.data)
    else:
        yield f's{len(entry.data)}'.encode()
        for number, page in sorted(SparseBytes.copy_of(entry.data).data_pages()):
            yield number.to_bytes(8, 'little') + page


def different_disks(crashed_trees: Iterable[Tuple[Entries, Crash]]) -> List[Disk]:
    """The different trees that crashes left, each with its digest and with all crashes that left it
    or an equal tree; of equal trees the first is kept. Trees are in the order of their first
    crashes, and crashes in that of `crashed_trees`."""
    disks: Dict[str, Disk] = {}
    for tree, crash in crashed_trees:
        digest = digest_of(tree)
        disks.setdefault(digest, Disk(tree, digest, [])).crashes.append(crash)
    return list(disks.values())
