"""Reads files from a disk, without their holes, and writes bytes at an offset of a file."""

from __future__ import annotations

import errno
import os
from typing import Iterator, Tuple, Union

from .sparse import LARGE_BYTES, Part, SparseBytes

PIECE_BYTES = 1 << 20
Bytes = Union[bytes, SparseBytes]


def read_file_bytes(descriptor: int) -> Bytes:
    """The bytes of an open file, from its beginning; those of a file of LARGE_BYTES or more as
    SparseBytes. If the file becomes shorter meanwhile, a small one has fewer bytes, and a large one
    zeros in their place; bytes that are added meanwhile aren't read. OSError if it can't be read.
    The descriptor's own offset may change."""
    size = os.fstat(descriptor).st_size
    if size < LARGE_BYTES:
        return b''.join(piece for _, piece in read_pieces(descriptor, 0, size))
    ranges = data_ranges(descriptor, size)
    return SparseBytes(
        size, (part for begin, end in ranges for part in read_pieces(descriptor, begin, end))
    )


def read_pieces(descriptor: int, begin: int, end: int) -> Iterator[Part]:
    """The bytes of an open file from the offset `begin` to before `end`, in pieces of at most
    PIECE_BYTES, each with its offset. If the file is shorter, the pieces end with it. OSError if
    it can't be read. The descriptor's own offset stays."""
    while begin < end:
        piece = os.pread(descriptor, min(PIECE_BYTES, end - begin), begin)
        if not piece:
            return
        yield begin, piece
        begin += len(piece)


def data_ranges(descriptor: int, size: int) -> Iterator[Tuple[int, int]]:
    """The ranges of the first `size` bytes of an open file that aren't holes, each as its two ends,
    ascending. If the file system doesn't report holes, there is one range, the whole file. No
    OSError is raised. The descriptor's own offset changes."""
    end = 0
    while end < size:
        try:
            begin = os.lseek(descriptor, end, os.SEEK_DATA)
        except OSError as error:
            if error.errno == errno.ENXIO:
                return
            begin = end
        try:
            end = min(os.lseek(descriptor, begin, os.SEEK_HOLE), size)
        except OSError:
            end = size
        yield begin, end


def write_at(descriptor: int, offset: int, data: Union[bytes, bytearray]) -> None:
    """Writes all bytes at an offset of an open file, in several writes if the system takes only
    some at once. After an OSError some may be written. The descriptor's own offset stays."""
    while data:
        count = os.pwrite(descriptor, data, offset)
        offset, data = offset + count, data[count:]
