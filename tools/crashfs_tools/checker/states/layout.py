"""What states are laid out by, and one way of it: from the archives that `crashfs tar` writes."""

from __future__ import annotations

import os
from abc import ABC, abstractmethod
from contextlib import contextmanager
from dataclasses import dataclass
from itertools import chain
from typing import (
    Callable,
    ContextManager,
    Dict,
    Iterable,
    Iterator,
    List,
    Set,
    Tuple,
    TypeVar,
    Union,
)

from crashfs_tools.common.archive import Member, members_by_state
from crashfs_tools.common.entry import Entry
from crashfs_tools.common.file_bytes import write_at
from crashfs_tools.common.removal import FOLDER, remove_tree, set_folder_mode
from crashfs_tools.common.program import Crashfs, ProgramFault
from crashfs_tools.common.sparse import SparseBytes

from .plan import PlannedTrace, Request
from .rewriting import PIECE_BYTES, Bytes, has_bytes

NEW_FILE = os.O_WRONLY | os.O_CREAT | os.O_EXCL | os.O_NOFOLLOW | os.O_CLOEXEC
# A directory's mode while it is filled.
FILLED_MODE = 0o700

# What a program's tree is made into while it is read.
Value = TypeVar('Value')
# The trees by the first state that has each; a path is below the state's directory.
TreesByState = Dict[int, List[Member]]


class Layout(ABC):
    """Gives states directories for a command to run in."""

    @abstractmethod
    def states(self, wanted: Set[int]) -> Iterator[Tuple[int, str]]:
        """Yields each wanted state with the path of its directory, in ascending order. Within
        laid_out() the directory has the tree. If the program or the server lacks a state, this
        raises a ProgramFault, or laid_out() a Refused."""

    @abstractmethod
    def laid_out(self, number: int, directory: str) -> ContextManager[None]:
        """Within this the directory of the state that states() yielded last has the state's tree;
        afterwards the directory may be gone. Both arguments must be what states() yielded. Several
        processes may lay out states at once."""


@dataclass
class ArchiveLayout(Layout):
    """Lays states out below a folder, which must exist, each as a directory whose name is the
    state's number. The environment is that of the program. loaded has trees of the plan that are in
    memory, maybe none: if it has those of all states that are wanted, the program isn't started."""

    program: Crashfs
    planned: PlannedTrace
    folder: str
    environment: Dict[str, str]
    loaded: TreesByState

    @contextmanager
    def laid_out(self, number: int, directory: str) -> Iterator[None]:
        """The directory has its tree before and within the `with`; afterwards it is removed. What
        can't be removed is left in another directory of the folder, which stays. After an exception
        within, the directory isn't removed. OSError as remove_tree()."""
        yield
        # All states of this process have one trash: on some disks it is slow to make and remove it.
        remove_tree(directory, trash=os.path.join(self.folder, f'removed-{os.getpid()}'))

    def states(self, wanted: Set[int]) -> Iterator[Tuple[int, str]]:
        """Yields directories that have their trees already, each made when it is asked for. OSError
        if a directory can't be made or filled: a part of it stays. ProgramFault if the program
        fails and, after the other states, if it lacks one."""
        first_numbers = {number: self.planned.plan.state(number).same for number in wanted}
        if not self.loaded.keys() >= set(first_numbers.values()):
            yield from read_trees(
                self.program, self.planned, wanted, self.environment, self.make_directory
            )
            return
        for number in sorted(wanted):
            yield number, self.make_directory(number, self.loaded[first_numbers[number]])

    def make_directory(self, number: int, tree: Iterable[Member]) -> str:
        """Makes the directory of a state, with its tree, and returns the directory's path, which
        ends in the state's number, or as unused_path() says. Errors as in lay_out()."""
        directory = unused_path(os.path.join(self.folder, str(number)))
        lay_out(directory, tree)
        return directory


def read_trees(
    program: Crashfs,
    planned: PlannedTrace,
    wanted: Set[int],
    environment: Dict[str, str],
    use_tree: Callable[[int, Iterable[Member]], Value],
) -> Iterator[Tuple[int, Value]]:
    """Yields each wanted state of a plan, ascending, with what use_tree() returns for its number
    and tree. use_tree() must read the tree to its end; paths are relative, the root's is empty.
    ProgramFault if an entry is in no state, if the program fails and, at the end, if a state is
    missing. The program is killed if the caller or use_tree() stops early."""
    values_of_requests = (
        read_trees_of_request(program, request, wanted, environment, use_tree)
        for request in planned.requests(wanted)
    )
    return with_all_wanted(wanted, chain.from_iterable(values_of_requests))


def list_tree(_number: int, tree: Iterable[Member]) -> List[Member]:
    """A use_tree() for read_trees(): the entries of a tree as a list."""
    return list(tree)


def read_trees_of_request(
    program: Crashfs,
    request: Request,
    wanted: Set[int],
    environment: Dict[str, str],
    use_tree: Callable[[int, Iterable[Member]], Value],
) -> Iterator[Tuple[int, Value]]:
    """Yields the wanted states that the program gives for one request, as read_trees() does, but
    doesn't notice missing ones. Other states, and a state that comes again, are skipped."""
    unread_numbers = set(wanted)
    with program.open_archive(request.options, environment) as members:
        for printed_number, tree in members_by_state(members):
            number = printed_number + request.number_offset
            if number in unread_numbers:
                unread_numbers.remove(number)
                yield number, use_tree(number, tree)


def with_all_wanted(
    wanted: Set[int], values: Iterator[Tuple[int, Value]]
) -> Iterator[Tuple[int, Value]]:
    """Yields these values, which a program gave, each with the number of its state. ProgramFault at
    the end if a wanted state isn't among them."""
    missing_numbers = set(wanted)
    for number, value in values:
        missing_numbers.discard(number)
        yield number, value
    if missing_numbers:
        raise ProgramFault(0, f'crashfs tar wrote no state {min(missing_numbers)}'.encode())


def unused_path(path: str) -> str:
    """The path itself if nothing is there, else the path with as many `+` at its end as it needs
    for that: COMMAND may leave something that can't be removed."""
    return unused_path(f'{path}+') if os.path.lexists(path) else path


def lay_out(directory: str, tree: Iterable[Member]) -> None:
    """Makes a directory with a tree: paths are relative, the root's is empty, and a directory comes
    before what is in it. Symbolic links are made after all else, so that nothing is made through
    one. The umask is 0 meanwhile. After an OSError, or an error of `tree`, what was made stays, and
    directories may have FILLED_MODE."""
    os.mkdir(directory, FILLED_MODE)
    modes: List[Tuple[str, int]] = []
    links: List[Tuple[str, str]] = []
    with open_to_fill(directory) as root:
        for path, entry in tree:
            if entry.link is not None:
                links.append((path, entry.link))
            elif entry.is_directory:
                modes.append((path, entry.mode))
            make_entry(path, entry, root)
        make_links(links, root)
        set_modes(modes, root)


@contextmanager
def open_to_fill(directory: str) -> Iterator[int]:
    """Yields a descriptor of a directory, below which entries are made within the `with`, and
    closes it at the end. The umask of this process is 0 meanwhile. OSError if the directory can't
    be opened, or is a link."""
    old_umask = os.umask(0)
    try:
        root = os.open(directory, FOLDER)
        try:
            yield root
        finally:
            os.close(root)
    finally:
        os.umask(old_umask)


def set_modes(modes: Iterable[Tuple[str, int]], root: int) -> None:
    """Sets the modes of directories, given as paths with modes, below the open directory `root`;
    the path of `root` itself is empty. Inner directories come first, since a mode may forbid
    changes below. OSError if a mode can't be set: those of outer ones aren't set then."""
    for path, mode in sorted(modes, reverse=True):
        set_folder_mode(path or '.', mode, root)


def make_entry(path: str, entry: Entry, root: int) -> None:
    """Makes a file or directory at a path below the open directory `root`; a directory gets
    FILLED_MODE for now. Nothing is made for the root itself or a symbolic link. FileExistsError if
    something is there."""
    if entry.data is not None:
        write_file(path, entry.mode, entry.data, root)
    elif path and entry.is_directory:
        os.mkdir(path, FILLED_MODE, dir_fd=root)


def make_links(links: Iterable[Tuple[str, str]], root: int) -> None:
    """Makes symbolic links, given as paths with their targets, below the open directory `root`:
    inner paths first, so that none is made through another. FileExistsError if something is at a
    path. After an OSError the further links aren't made."""
    for path, target in sorted(links, reverse=True):
        os.symlink(os.fsencode(target), path, dir_fd=root)


def write_file(path: str, mode: int, data: Bytes, root: int) -> None:
    """Makes a file at a path below the open directory `root`, with its bytes, and with its mode
    without the bits of the umask. FileExistsError if something is there, also a link."""
    file = os.open(path, NEW_FILE, mode, dir_fd=root)
    try:
        write_all(file, data)
    finally:
        os.close(file)


def write_all(file: int, data: Bytes) -> None:
    """Writes all bytes of a file that is open and empty. Zeros become holes if they are a page of
    SparseBytes or, in other data of more than PIECE_BYTES, a whole piece of that size. After an
    OSError a part of the bytes may be written."""
    if not isinstance(data, SparseBytes) and len(data) <= PIECE_BYTES:
        write_at(file, 0, data)
        return
    for offset, piece in pieces_with_bytes(data):
        write_at(file, offset, piece)
    os.ftruncate(file, len(data))


def pieces_with_bytes(data: Bytes) -> Iterator[Tuple[int, Union[bytes, bytearray]]]:
    """Yields the pieces of a file's bytes that have other bytes than zeros, each after its offset:
    runs of pages of SparseBytes, or else pieces of PIECE_BYTES, of which the last may be
    shorter."""
    if isinstance(data, SparseBytes):
        yield from data.page_runs()
        return
    for offset in range(0, len(data), PIECE_BYTES):
        piece = data[offset : offset + PIECE_BYTES]
        if has_bytes(piece):
            yield offset, piece
