"""Removes directories of any depth, but nothing that is mounted in them."""

from __future__ import annotations

import errno
import os
from typing import List, Optional

FOLDER = os.O_RDONLY | os.O_DIRECTORY | os.O_NOFOLLOW | os.O_CLOEXEC
# Opens a directory that may not be read.
PLACE = os.O_PATH | os.O_DIRECTORY | os.O_NOFOLLOW | os.O_CLOEXEC
OPEN_MODE = 0o700
# What stays of a directory is next to it, in one whose name ends so.
TRASH_ENDING = '.left'


def set_folder_mode(name: str, mode: int, dir_fd: Optional[int] = None) -> None:
    """Sets the mode of a directory, which needn't be readable. The name may be relative to the open
    directory `dir_fd`. OSError if that fails, or if the name is a link: the link's target keeps its
    mode."""
    descriptor = os.open(name, PLACE, dir_fd=dir_fd)
    try:
        os.chmod(f'/proc/self/fd/{descriptor}', mode)
    finally:
        os.close(descriptor)


def remove_tree(path: str, dir_fd: Optional[int] = None, trash: str = '') -> bool:
    """Removes a file, or a directory whatever the modes in it; the path may be relative to the open
    directory `dir_fd`. Returns whether it is gone, also if nothing was there. What is mounted in it
    or may not be removed is left in the directory `trash`, or else at its path. `trash` must be on
    the same file system, and with `dir_fd` it must be passed; it is made if it isn't there, and
    stays, but the default, PATH + TRASH_ENDING, is removed if it is empty. OSError if it can't be
    made or opened."""
    try:
        os.unlink(path, dir_fd=dir_fd)
    except FileNotFoundError:
        return True
    except IsADirectoryError:
        if trash:
            return remove_directory(path, dir_fd, trash)
        is_gone = remove_directory(path, dir_fd, path + TRASH_ENDING)
        remove_if_empty(path + TRASH_ENDING, None)
        return is_gone
    except OSError:
        return False
    return True


def remove_directory(path: str, dir_fd: Optional[int], trash: str) -> bool:
    """Removes a directory; `trash` is needed only if the directory isn't empty. Returns whether all
    of it is gone. What can't be removed is left in `trash`, or, if it can't be moved there, at its
    path. OSError if `trash` can't be made or opened."""
    if remove_if_empty(path, dir_fd):
        return True
    if not os.path.isdir(trash):
        make_trash(trash, path, dir_fd)
    trash_fd = os.open(trash, FOLDER)
    try:
        return Removal(trash_fd).remove(path, dir_fd)
    finally:
        os.close(trash_fd)


def remove_if_empty(path: str, dir_fd: Optional[int]) -> bool:
    """Removes a directory if it is empty. Returns whether it did; False also if the directory may
    not be removed, or isn't there."""
    try:
        os.rmdir(path, dir_fd=dir_fd)
    except OSError:
        return False
    return True


def make_trash(trash: str, path: str, dir_fd: Optional[int]) -> None:
    """Makes the directory `trash`. If the disk is full, make_room() first removes something from
    the directory `path`. OSError as make_room(), or if `trash` can't be made even then."""
    try:
        os.mkdir(trash, OPEN_MODE)
    except OSError as error:
        if error.errno not in (errno.ENOSPC, errno.EDQUOT):
            raise
        make_room(path, dir_fd)
        os.mkdir(trash, OPEN_MODE)


def make_room(path: str, dir_fd: Optional[int]) -> None:
    """Removes one file or empty directory that is in a directory, at any depth, but nothing that is
    mounted there. Follows only the first entry of each directory; nothing happens if the directory
    itself is empty. OSError if a directory can't be opened or read, or if the entry that it finds
    can't be removed."""
    directory_fd = os.open(path, FOLDER, dir_fd=dir_fd)
    device = os.fstat(directory_fd).st_dev
    try:
        while os.fstat(directory_fd).st_dev == device:
            inner_fd = remove_first_entry(directory_fd)
            if inner_fd is None:
                return
            os.close(directory_fd)
            directory_fd = inner_fd
    finally:
        os.close(directory_fd)


def remove_first_entry(directory_fd: int) -> Optional[int]:
    """Removes the first entry of an open directory, and returns None, also if there is no entry. A
    directory that can't be removed, as one that isn't empty, is opened instead: returns its
    descriptor, which the caller closes. OSError for a file that can't be removed."""
    with os.scandir(directory_fd) as entries:
        entry = next(entries, None)
        is_directory = entry is not None and entry.is_dir(follow_symlinks=False)
    if entry is None:
        return None
    if not is_directory:
        os.unlink(entry.name, dir_fd=directory_fd)
        return None
    if remove_if_empty(entry.name, directory_fd):
        return None
    return os.open(entry.name, FOLDER, dir_fd=directory_fd)


class Removal:
    """Empties directories in an open one, the trash, to which it moves each of them first, so that
    no path has more than two names. The system moves no mount point, and nothing to another file
    system, so what is mounted in a directory is never reached. waiting has the names of directories
    that are in the trash and not yet empty."""

    def __init__(self, trash_fd: int) -> None:
        """trash_fd is the open trash, which the caller closes."""
        self.trash_fd = trash_fd
        self.prefix = os.urandom(4).hex()
        self.moved_count = 0
        self.waiting: List[str] = []

    def remove(self, path: str, dir_fd: Optional[int]) -> bool:
        """Removes what can be removed of a directory. Returns whether it is gone with all that was
        in it. The rest stays in the trash, or, if it can't be moved there, at its path. No OSError
        is raised."""
        is_gone = self.move_to_trash(path, dir_fd)
        while self.waiting:
            name = self.waiting.pop()
            try:
                self.empty_directory(name)
                os.rmdir(name, dir_fd=self.trash_fd)
            except OSError:
                is_gone = False
        return is_gone

    def move_to_trash(self, name: str, dir_fd: Optional[int]) -> bool:
        """Moves a directory to the trash under a new name, which is added to `waiting`. Returns
        False if it can't be moved: then it stays at its path, perhaps with the mode OPEN_MODE,
        which it gets if the first try isn't permitted."""
        new_name = f'{self.prefix}-{self.moved_count}'
        self.moved_count += 1
        try:
            try:
                os.rename(name, new_name, src_dir_fd=dir_fd, dst_dir_fd=self.trash_fd)
            except PermissionError:
                set_folder_mode(name, OPEN_MODE, dir_fd)
                os.rename(name, new_name, src_dir_fd=dir_fd, dst_dir_fd=self.trash_fd)
        except OSError:
            return False
        self.waiting.append(new_name)
        return True

    def empty_directory(self, name: str) -> None:
        """Removes the files of a directory in the trash, and moves its directories to the trash; a
        directory that can't be moved stays. OSError if the directory can't be opened or read, or if
        a file can't be removed: the entries after that file stay too."""
        directory_fd = self.open_in_trash(name)
        try:
            allow_owner(directory_fd)
            with os.scandir(directory_fd) as entries:
                names = [(entry.name, entry.is_dir(follow_symlinks=False)) for entry in entries]
            for inner_name, is_directory in names:
                if is_directory:
                    self.move_to_trash(inner_name, directory_fd)
                else:
                    os.unlink(inner_name, dir_fd=directory_fd)
        finally:
            os.close(directory_fd)

    def open_in_trash(self, name: str) -> int:
        """Opens a directory in the trash, which gets the mode OPEN_MODE if it can't be opened
        otherwise. Returns its descriptor, which the caller closes. OSError if it can't be opened
        even then."""
        try:
            return os.open(name, FOLDER, dir_fd=self.trash_fd)
        except PermissionError:
            set_folder_mode(name, OPEN_MODE, self.trash_fd)
            return os.open(name, FOLDER, dir_fd=self.trash_fd)


def allow_owner(directory_fd: int) -> None:
    """Gives an open directory the mode OPEN_MODE, unless its owner has all rights already. OSError
    if that isn't permitted."""
    if os.fstat(directory_fd).st_mode & OPEN_MODE != OPEN_MODE:
        os.fchmod(directory_fd, OPEN_MODE)
