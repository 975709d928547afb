"""The entries of a tree, by path."""

from __future__ import annotations

from dataclasses import dataclass
from typing import Dict, Iterable, Iterator, Optional, Union

from . import limits
from .sparse import SparseBytes

FILE_KIND, DIRECTORY_KIND, SYMLINK_KIND = 'a file', 'a directory', 'a symbolic link'


@dataclass
class Entry:
    """A directory, a file (data has its bytes) or a symbolic link (link has its target). Entries
    are equal if owner, group, mode, bytes and target are, in whatever form the bytes are kept."""

    owner: str
    group: str
    mode: int
    data: Union[bytes, bytearray, SparseBytes, None]
    link: Optional[str] = None

    @property
    def kind(self) -> str:
        """What it is, in words: FILE_KIND, DIRECTORY_KIND or SYMLINK_KIND."""
        if self.link is not None:
            return SYMLINK_KIND
        return DIRECTORY_KIND if self.is_directory else FILE_KIND

    @property
    def is_directory(self) -> bool:
        """Whether it is a directory: it has neither bytes nor a target."""
        return self.data is None and self.link is None

    @property
    def is_file(self) -> bool:
        """Whether it is a file, which has bytes."""
        return self.data is not None

    def write(self, offset: int, data: bytes) -> None:
        """Puts bytes at an offset of a file, in place: entries that share its bytes change too, see
        writable_bytes(). A file that ends before them grows, also for no bytes, with zeros up to
        the offset. No limit of its size is checked. Only a file may be written: any other entry
        would become one."""
        end = offset + len(data)
        content = self.writable_bytes(end)
        if isinstance(content, SparseBytes):
            content.write(offset, data)
            return
        content.extend(bytes(max(0, end - len(content))))
        content[offset:end] = data

    def resize(self, length: int) -> None:
        """Cuts the bytes of a file, or adds zeros, in place: entries that share its bytes change
        too, see writable_bytes(). Only a file may be resized: any other entry would become one."""
        content = self.writable_bytes(length)
        if isinstance(content, SparseBytes):
            content.resize(length)
            return
        del content[length:]
        content.extend(bytes(length - len(content)))

    def writable_bytes(self, length: int) -> Union[bytearray, SparseBytes]:
        """The bytes of a file in a form that can be changed in place, which the entry keeps: the
        same bytearray or SparseBytes, which other entries may share, or a copy of `bytes`. `length`
        is their size after the change: above limits.FILE_BYTES, if they aren't SparseBytes yet, the
        form is a copy as SparseBytes."""
        if length > limits.FILE_BYTES and not isinstance(self.data, SparseBytes):
            self.data = SparseBytes.copy_of(bytes(self.data or b''))
        if not isinstance(self.data, (bytearray, SparseBytes)):
            self.data = bytearray(self.data or b'')
        return self.data


Entries = Dict[str, Entry]


def parent_of(path: str) -> str:
    """The path of the directory in which the file or directory of a path is; `/` for the root
    itself."""
    return path.rpartition('/')[0] or '/'


def paths_below(paths: Iterable[str], directory: str) -> Iterator[str]:
    """Those of some paths that are below a directory, which isn't the root, at any depth. What the
    paths come from must not be changed before the last one is taken."""
    prefix = directory + '/'
    return (path for path in paths if path.startswith(prefix))


def ancestors_and_path(path: str) -> Iterator[str]:
    """Yields the paths of the directories above a path, from the highest on, but not the root, and
    then the path itself. For the root it is only `/`."""
    names = path.split('/')
    return ('/'.join(names[:count]) for count in range(2, len(names) + 1))
