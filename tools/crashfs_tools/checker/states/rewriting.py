"""Gives a file other bytes: writes only where they differ, and no large run of zeros at its end."""

from __future__ import annotations

import os
from typing import Iterable, Union

from crashfs_tools.common.file_bytes import write_at
from crashfs_tools.common.sparse import PAGE_BYTES, SparseBytes

PIECE_BYTES = 1 << 14
Bytes = Union[bytes, bytearray, SparseBytes]


def rewrite(file: int, old_bytes: Bytes, wanted_bytes: Bytes) -> None:
    """Changes an open file from old_bytes, which it must have, to wanted_bytes: writes only pieces
    of PIECE_BYTES that differ. A piece of zeros at the old end or past it becomes a hole. After an
    OSError some pieces may be changed."""
    for offset in piece_offsets(old_bytes, wanted_bytes):
        piece = wanted_bytes[offset : offset + PIECE_BYTES]
        if old_bytes[offset : offset + PIECE_BYTES] != piece and (
            offset < len(old_bytes) or has_bytes(piece)
        ):
            write_at(file, offset, piece)
    if len(old_bytes) != len(wanted_bytes):
        os.ftruncate(file, len(wanted_bytes))


def piece_offsets(old_bytes: Bytes, wanted_bytes: Bytes) -> Iterable[int]:
    """The offsets, ascending, of the pieces of wanted_bytes that may differ from old_bytes: of all
    pieces or, if both are sparse, of those in which one of them has a page."""
    if isinstance(old_bytes, SparseBytes) and isinstance(wanted_bytes, SparseBytes):
        pages = old_bytes.pages.keys() | wanted_bytes.pages.keys()
        offsets = {page * PAGE_BYTES // PIECE_BYTES * PIECE_BYTES for page in pages}
        return sorted(offset for offset in offsets if offset < len(wanted_bytes))
    return range(0, len(wanted_bytes), PIECE_BYTES)


def has_bytes(piece: Union[bytes, bytearray]) -> bool:
    """Whether a piece has other bytes than zeros."""
    return piece.count(0) != len(piece)
