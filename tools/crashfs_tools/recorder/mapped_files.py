"""Copies of files that are mapped for writing: strace sees no stores, so the program is stopped
at each of STOPPING_CALLS, and the files are read."""

from __future__ import annotations

import os
import re
from dataclasses import dataclass, field
from typing import Dict, Iterable, List, Optional, Set, Tuple

from crashfs_tools.common.file_bytes import Bytes, read_file_bytes

from . import arguments, call_order, stopped_processes
from .directory import IsIgnored

# The calls after which the files are read: those that sync, write, change a name, or map.
STOPPING_CALLS = sorted(
    call_order.SYNCS
    | call_order.DATA_CHANGES
    | call_order.NAME_CHANGES
    | {'mmap', 'mmap2', 'munmap', 'mremap'}
)
# Those of STOPPING_CALLS that do nothing while a signal is pending, and start again after it: if
# SIGSTOP came at each start, they would never end. So a thread is stopped at every second start
# only, which is never a restart. But if a call doesn't restart, as it writes to a pipe, or as its
# file system doesn't look for signals, the next one isn't stopped: unsure_copies() finds those.
RESTARTED_CALLS = ['copy_file_range', 'sendfile', 'sendfile64', 'splice']
# The thread of a copy for which none was stopped.
NO_THREAD = 0
# A call that maps a file as shared: its thread, the descriptor, and the path that strace shows.
MAPPED = re.compile(
    r'^(\d+) +mmap2?\([^,]*, \d+, [^,]*, [^,]*MAP_SHARED[^,]*, (\d+)<((?:\\x[0-9a-f]{2})+)>'
)


@dataclass
class FileCopy:
    """A copy of the mapped files: bytes_by_number has the bytes of each file that changed since the
    copy before, by the file's number. line_number is that of the log's last line that had been
    read. thread is the one that was stopped, NO_THREAD for the copy at the end. is_alone means that
    its process has no other thread, and that no thread ran while the copy before was made; the copy
    at the end has it too. shared_numbers has the files that other processes may have mapped too."""

    line_number: int
    thread: int
    is_alone: bool
    bytes_by_number: Dict[int, Bytes]
    shared_numbers: Set[int] = field(default_factory=set)

    @property
    def is_last(self) -> bool:
        """Whether it is the copy at the end, for which no thread was stopped."""
        return self.thread == NO_THREAD

    def has_one_writer(self, number: int) -> bool:
        """Whether only the stopped thread could store to the file with this number. True for the
        copy at the end, after which no call comes."""
        return self.is_alone and number not in self.shared_numbers


@dataclass
class FileCopies:
    """All copies of a run, in the order in which they were taken. numbers_by_line has the number of
    a mapped file by the log's line of each of its mappings; unopened_paths has the paths of mapped
    files that could not be opened."""

    copies: List[FileCopy] = field(default_factory=list)
    numbers_by_line: Dict[int, int] = field(default_factory=dict)
    unopened_paths: List[str] = field(default_factory=list)


def open_first(paths: Iterable[str]) -> Optional[int]:
    """A descriptor that reads the first of these files that can be opened; None if none can. The
    caller closes it."""
    for path in paths:
        try:
            return os.open(path, os.O_RDONLY)
        except OSError:
            continue
    return None


class MappedFiles:
    """The files below a directory that were mapped, each with a number, from 0, and a descriptor
    that is open until make_last_copy(). file_copies has what was copied so far. numbers has the
    number of each file by its device and inode; newest_bytes has, by number, the bytes in the
    file's newest copy."""

    def __init__(self, top: str, is_ignored: IsIgnored) -> None:
        """Opens nothing yet. top is the directory's absolute path, without symbolic links."""
        self.top, self.is_ignored = top, is_ignored
        self.file_copies = FileCopies()
        self.numbers: Dict[Tuple[int, int], int] = {}
        self.descriptors: List[int] = []
        self.newest_bytes: Dict[int, Bytes] = {}

    def open_mapped_file(self, line: str, line_number: int) -> None:
        """Opens the file that a line of the log maps as shared, and holds it open. Nothing for
        other lines, for an ignored file, and for one outside the directory. An unlinked file is
        opened only by the descriptor of the process, which must not have closed it yet; others are
        opened by their path, if possible. A file that can't be opened is added to
        unopened_paths."""
        match, prefix = MAPPED.match(line), self.top.rstrip('/')
        path = arguments.parse_shown_text(match[3]) if match else None
        if match is None or path is None or not path.startswith(prefix + '/'):
            return
        path_below = path[len(prefix) :]
        if self.is_ignored(path_below):
            return
        # The path of an unlinked file may be that of another one now.
        paths = [] if line.startswith('(deleted)', match.end()) else [path]
        descriptor = open_first([*paths, f'/proc/{match[1]}/fd/{match[2]}'])
        if descriptor is None:
            self.file_copies.unopened_paths.append(path_below)
        else:
            self.hold_open(descriptor, line_number)

    def hold_open(self, descriptor: int, line_number: int) -> None:
        """Keeps the descriptor of a file that the log's line with this number mapped; if the file
        is held open already, closes the descriptor. In both cases the line gets the file's number
        in numbers_by_line."""
        status = os.fstat(descriptor)
        inode = status.st_dev, status.st_ino
        if inode in self.numbers:
            os.close(descriptor)
        else:
            self.numbers[inode] = len(self.descriptors)
            self.descriptors.append(descriptor)
        self.file_copies.numbers_by_line[line_number] = self.numbers[inode]

    def copy_changed_files(
        self, line_number: int, thread: int, *, is_alone: bool, other_threads: Iterable[int] = ()
    ) -> None:
        """Adds a copy of the files that changed since the copy before, also if none did.
        line_number, thread and is_alone are as in FileCopy; other_threads are the threads of other
        processes. OSError if a file can't be read: then no copy is added, and newest_bytes
        stays."""
        changed_bytes: Dict[int, Bytes] = {}
        for number, descriptor in enumerate(self.descriptors):
            data = read_file_bytes(descriptor)
            if self.newest_bytes.get(number) != data:
                changed_bytes[number] = data
        self.newest_bytes.update(changed_bytes)
        mapped_numbers = self.numbers_mapped_by(other_threads) if changed_bytes else set()
        self.file_copies.copies.append(
            FileCopy(
                line_number=line_number,
                thread=thread,
                is_alone=is_alone,
                bytes_by_number=changed_bytes,
                shared_numbers=mapped_numbers & changed_bytes.keys(),
            )
        )

    def numbers_mapped_by(self, threads: Iterable[int]) -> Set[int]:
        """The numbers of the files that the processes of these threads may have mapped. Some may be
        files that they haven't mapped: a file counts by its inode, whatever its device, and all
        files count if what a process has mapped can't be read."""
        mapped_inodes: Set[str] = set()
        for thread in threads:
            inodes = stopped_processes.read_mapped_inodes(thread)
            if inodes is None:
                return set(self.numbers.values())
            mapped_inodes |= inodes
        return {
            number for (_, inode), number in self.numbers.items() if str(inode) in mapped_inodes
        }

    def make_last_copy(self, line_number: int) -> None:
        """Adds the last copy, of what the program left, and closes the files; to be called once.
        line_number is as in FileCopy. OSError if a file can't be read: then no copy is added, and
        all files stay open."""
        self.copy_changed_files(line_number, NO_THREAD, is_alone=True)
        for descriptor in self.descriptors:
            os.close(descriptor)
