"""The state of a process: its descriptors, its working directory, its umask and its memory."""

from __future__ import annotations

import re
import stat
from copy import copy
from dataclasses import dataclass, field
from typing import Dict, Iterable, Optional, Set

from .arguments import CURRENT_DIRECTORY, Descriptor, parse_digits, parse_path
from .live_tree import Node
from .mappings import Memory
from .output_streams import OutputStream
from .resolving import REMOVED, removed_path
from .strace_log import Call

# Paths that mean a descriptor of a process.
DESCRIPTOR_PATH = re.compile(r'^(?:/proc/(self|thread-self|\d+)(?:/task/\d+)?|/dev)/fd/(\d+)$')
STANDARD_NAMES = {'/dev/stdin': 0, '/dev/stdout': 1, '/dev/stderr': 2}


@dataclass(eq=False)
class OpenFile:
    """An open file or output stream, which all descriptors share that were duplicated or inherited
    from one. A file has its node; node is None for a stream, and `stream` too if the stream isn't
    known. offset is that of the next read or write. is_appending means O_APPEND;
    is_syncing means O_SYNC or O_DSYNC: each write is synced."""

    node: Optional[Node]
    offset: int = 0
    is_appending: bool = False
    is_syncing: bool = False
    stream: Optional[OutputStream] = None

    @staticmethod
    def opened_with(node: Node, flags: str) -> OpenFile:
        """A new open file of a node, at offset 0, with the flags of an open, such as
        `O_WRONLY|O_APPEND`."""
        return OpenFile(
            node,
            is_appending='O_APPEND' in flags,
            is_syncing='O_SYNC' in flags or 'O_DSYNC' in flags,
        )


def node_of(file: Optional[OpenFile]) -> Optional[Node]:
    """The file or directory that is open; None for a stream, and for None, which is a file that
    isn't followed."""
    return None if file is None else file.node


@dataclass
class Descriptors:
    """A process's table of open files by their descriptors; threads share one. It has only the
    descriptors that are followed: of files in the directory, and of output streams. closed_by_exec
    has the numbers of those that an exec closes, perhaps with numbers that aren't followed."""

    files: Dict[int, OpenFile] = field(default_factory=dict)
    closed_by_exec: Set[int] = field(default_factory=set)

    def set_file(self, number: int, file: Optional[OpenFile], *, is_closed_by_exec: bool) -> None:
        """Sets the open file of a descriptor that a call made, and forgets an older descriptor with
        this number. If the file is None, as it is outside the directory, the descriptor isn't
        followed."""
        self.close(number)
        if file is not None:
            self.files[number] = file
        if is_closed_by_exec:
            self.closed_by_exec.add(number)

    def close(self, number: int) -> None:
        """Forgets a descriptor that was closed, which need not be followed."""
        self.files.pop(number, None)
        self.closed_by_exec.discard(number)

    def copy(self) -> Descriptors:
        """The table of a forked process: a new one with the same open files, whose offsets both
        processes share."""
        return Descriptors(dict(self.files), set(self.closed_by_exec))


@dataclass
class PathContext:
    """The working directory and the umask; threads share one context. The directory is an absolute
    path without symbolic links; once it is removed, the path that removed_path() returns."""

    directory: str
    umask: int

    def mode_of_new_node(self, word: str) -> int:
        """The mode of a file or directory that is made with the mode in an argument (`word`):
        without the bits of the umask. It may have bits beyond 777. LogError if the argument isn't
        in octal digits."""
        return stat.S_IMODE(parse_digits(word, 8)) & ~self.umask

    def update_directory(self, new_paths: Dict[str, str]) -> None:
        """Gives the working directory its new path if it is one of the directories in new_paths, or
        below one; the first of these decides. new_paths has the new paths of directories that were
        renamed or removed, by the old ones; all are absolute."""
        for old_path, new_path in new_paths.items():
            if (self.directory + '/').startswith(old_path + '/'):
                self.directory = new_path + self.directory[len(old_path) :]
                break


@dataclass
class Process:
    """A process or a thread. Threads of one process share these objects; a forked process has
    copies of its parent's objects."""

    descriptors: Descriptors
    path_context: PathContext
    memory: Memory = field(default_factory=Memory)

    def open_file(self, shown: Descriptor) -> Optional[OpenFile]:
        """The open file of a descriptor; None if the descriptor isn't followed."""
        return self.descriptors.files.get(shown.number)

    def directory_of(self, shown: Descriptor) -> str:
        """The absolute path of the directory at which a relative path after a descriptor begins:
        what strace shows, or removed_path() of it if strace shows that it is removed. If strace
        shows no path, it is the working directory."""
        own_directory = self.path_context.directory
        # Of a removed working directory strace shows the path with ` (deleted)` at its end.
        is_in_removed = shown.number == CURRENT_DIRECTORY and REMOVED in own_directory
        if shown.path is None or is_in_removed:
            return own_directory
        return removed_path(shown.path) if shown.is_deleted else shown.path

    def forked_child(self, fork: Call) -> Process:
        """The process or thread that a call of FORKS by this process makes. A vfork shares the
        memory; of other calls the flags say what both share. The rest is copied as it is now."""
        flags = ' '.join(fork.arguments)
        has_shared_memory = 'CLONE_VM' in flags or fork.name == 'vfork'
        return Process(
            self.descriptors if 'CLONE_FILES' in flags else self.descriptors.copy(),
            self.path_context if 'CLONE_FS' in flags else copy(self.path_context),
            self.memory if has_shared_memory else self.memory.copy(),
        )


def open_file_of_path(
    word: str, process: Process, processes: Dict[int, Process]
) -> Optional[OpenFile]:
    """The open file of the descriptor that the path in an argument of a process means, such as
    /proc/self/fd/3 or /dev/stdout. `processes` has all that are known, by their numbers. None for
    any other path, if the descriptor isn't followed, and for /proc/PID/fd of another process that
    isn't known."""
    path = parse_path(word) or ''
    if path in STANDARD_NAMES:
        return process.descriptors.files.get(STANDARD_NAMES[path])
    match = DESCRIPTOR_PATH.match(path)
    if not match:
        return None
    has_number = (match[1] or '').isdigit()
    owner = processes.get(int(match[1])) if has_number else process
    return owner.descriptors.files.get(int(match[2])) if owner else None


def move_working_directories(processes: Iterable[Process], new_paths: Dict[str, str]) -> None:
    """Gives each process that is in a renamed or removed directory the new path of its working
    directory, once for all threads that share it. new_paths is as in update_directory()."""
    contexts = {id(process.path_context): process.path_context for process in processes}
    for context in contexts.values():
        context.update_directory(new_paths)
