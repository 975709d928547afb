"""Finds the lines of strace's log that need no reading: most calls of a program are on files
elsewhere.

A call on one descriptor is needed only if the descriptor is of a file below the directory or of an
output stream. A line that shows the directory's path, or the number of a descriptor that may be of
one of these, is read.
"""

from __future__ import annotations

import re
from typing import Iterable, Optional, Set

from .arguments import escape_text, parse_integer

# Calls that change only the file of their first argument, a descriptor.
DESCRIPTOR_CALLS = frozenset(
    ('read', 'readv', 'preadv2', 'lseek', '_llseek')
    + ('write', 'pwrite64', 'writev', 'pwritev', 'pwritev2')
    + ('ftruncate', 'ftruncate64', 'fallocate', 'fsync', 'fdatasync')
    + ('sync_file_range', 'sync_file_range2', 'fcntl', 'fcntl64', 'close', 'ioctl')
    + ('fchmod', 'fchown', 'fchown32', 'fsetxattr', 'fremovexattr')
)
# Calls that are needed only once a file of the directory is mapped.
MEMORY_CALLS = frozenset(('mmap', 'mmap2', 'munmap', 'mremap', 'mprotect', 'msync'))
# Calls whose result is a descriptor.
DESCRIPTOR_MAKERS = frozenset(
    ('open', 'openat', 'openat2', 'creat', 'dup', 'dup2', 'dup3', 'fcntl', 'fcntl64')
)
MAPPING_CALLS = ('mmap', 'mmap2')
# Those of DESCRIPTOR_CALLS that write bytes, which are their second argument.
WRITES = ('write', 'pwrite64', 'writev', 'pwritev', 'pwritev2')
# The process, the call, its first descriptor, and what strace shows for that.
HEAD = re.compile(r'\d+\s+(\w+)\((?:(0x[0-9a-f]+|\d+)(?:<([^>]*)>|[, )]))?')
# What is shown of a path begins with its slash; pipes and sockets have a word.
SLASH = escape_text(b'/')
RESULT = re.compile(r' = (\d+)(?:<([^>]*)>)?[^>]*$')
# What the paths begin with that may mean a descriptor: /dev/fd/1, /dev/stdout, /proc/self/fd/1.
DESCRIPTOR_PATHS = tuple(map(escape_text, (b'/dev/fd', b'/dev/std', b'/proc/')))


class LogFilter:
    """Finds needless lines by needed_descriptors: those that may be of files below a directory, or
    of streams, in any process; has_mapping means that a file below the directory was mapped. Each
    whole call that isn't needless must be given to learn_from_result(), from which both come,
    before is_needless() is asked about a later line. shown_top is the directory's path as strace
    shows it."""

    def __init__(self, top: bytes, descriptors: Iterable[int] = ()) -> None:
        """`top` is the directory's path as the calls have it. These descriptors, and 0 to 2, are
        needed from the beginning."""
        self.shown_top = escape_text(top.rstrip(b'/') or b'/')
        self.needed_descriptors: Set[int] = {0, 1, 2, *descriptors}
        self.has_mapping = False

    def is_needless(self, line: str) -> bool:
        """Whether a line needs no reading; it may have only the beginning of a call. A call of
        DESCRIPTOR_CALLS is needless if its descriptor isn't needed, if strace shows a path or
        nothing for the descriptor, and if the line doesn't show the directory's path; in what
        WRITES write, that path isn't looked for. A call of MEMORY_CALLS is needless if no
        file of the directory is mapped yet, and the line doesn't show the directory's path. No
        other line is."""
        match = HEAD.match(line)
        if match is None:
            return False
        name, number, shown_text = match.groups()
        if name in MEMORY_CALLS:
            return not self.has_mapping and self.shown_top not in line
        if name not in DESCRIPTOR_CALLS or number is None:
            return False
        text_to_search = shown_text or '' if name in WRITES else line
        return (
            parse_integer(number) not in self.needed_descriptors
            and (shown_text is None or shown_text.startswith(SLASH))
            and self.shown_top not in text_to_search
        )

    def learn_from_result(self, name: str, line: str) -> None:
        """Learns what a whole call made: a descriptor that is needed from now on, even after it is
        closed, or the mapping of a file of the directory. `name` is the call's, and `line` is its
        line, put together if the log has it in two."""
        if name in MAPPING_CALLS:
            self.has_mapping |= self.shown_top in line
        elif name in DESCRIPTOR_MAKERS:
            result = RESULT.search(line)
            if result is not None and self.is_result_needed(line, result[2]):
                self.needed_descriptors.add(int(result[1]))

    def is_result_needed(self, line: str, shown_result: Optional[str]) -> bool:
        """Whether the descriptor that a line's call made may be of the directory or of a stream:
        strace shows nothing for the descriptor (None), or a path of the directory; or the line has
        a path such as /dev/fd/3; or the call's first argument is a needed descriptor, which it
        duplicates."""
        if shown_result is None or self.shown_top in shown_result:
            return True
        if any(path in line for path in DESCRIPTOR_PATHS):
            return True
        match = HEAD.match(line)
        number = match[2] if match else None
        return number is not None and parse_integer(number) in self.needed_descriptors
