"""Finds files that have the path of the recorded directory: a recovery that opens that path reads
the recorded files instead of those of a crash state."""

from __future__ import annotations

import os
import re
from typing import Iterator, List, Tuple

from crashfs_tools.common.sparse import SparseBytes
from crashfs_tools.common.trace import Start, StartSymlink, Symlink, Trace, Write

NOTE = (
    'it has the path of the recorded directory: a recovery that opens that path reads no crash '
    'state'
)


def files_with_path(trace: Trace, top: str) -> List[str]:
    """The paths of the files and symbolic links in a trace whose bytes or target have the path of
    the directory `top`, each once, in the order of the trace. `top` isn't found if it is split
    between two writes, or between two pieces of a large file of the start tree. Empty if `top` is
    the root."""
    if top == '/':
        return []
    # A longer name, as `/store2` for `/store`, is another path.
    pattern = re.compile(re.escape(os.fsencode(top)) + rb'(?![\w.-])')
    return list(
        dict.fromkeys(path for path, data in pieces_of_bytes(trace) if pattern.search(data))
    )


def pieces_of_bytes(trace: Trace) -> Iterator[Tuple[str, bytes]]:
    """Yields each piece of bytes in a trace, in its order, after the path that the file has at that
    line of the trace. The piece of a symbolic link is its target."""
    for line in (*trace.start, *trace.operations):
        if isinstance(line, (StartSymlink, Symlink)):
            yield line.path, os.fsencode(line.link)
        elif isinstance(line, Start) and isinstance(line.data, SparseBytes):
            yield from ((line.path, data) for _, data in line.data.page_runs())
        elif isinstance(line, (Start, Write)) and line.data:
            yield line.path, bytes(line.data)
