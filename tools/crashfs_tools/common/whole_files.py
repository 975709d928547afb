"""Files that are written as a whole: a failure leaves the old file."""

from __future__ import annotations

import errno
import os
import stat
import sys
import tempfile
from typing import Iterable

from .command import TEXT, Refused
from .streams import flushed_output

# The path that means standard output, also if there is a file of this name.
STANDARD_OUTPUT = '-'


def folder_to_write(path: str) -> str:
    """The directory in which write_whole_file() will write a path, or the target of a link at the
    path; for `-` this directory. Refused if the path is empty or a directory, or no file can be
    made there; what is_written_in_place() needs no right in the directory. A foreign file isn't
    refused here."""
    if path == STANDARD_OUTPUT:
        return os.getcwd()
    if not path:
        raise Refused('the name of a file to write is empty')
    folder = os.path.dirname(os.path.realpath(path))
    if not os.path.isdir(folder):
        raise Refused(f'{path}: its directory is not there')
    if os.path.isdir(path):
        raise Refused(f'{path} is a directory')
    if not is_written_in_place(path) and not os.access(folder, os.W_OK):
        raise Refused(f'{path}: its directory may not be written')
    return folder


def is_written_in_place(path: str) -> bool:
    """Whether write_whole_file() writes a path in place: standard output (`-`), or something that
    is there and no plain file, such as a pipe or /dev/null."""
    return path == STANDARD_OUTPUT or (os.path.exists(path) and not os.path.isfile(path))


def write_whole_file(path: str, pieces: Iterable[str], mode: int = 0o666) -> None:
    """Replaces a file, or the target of a link, by replace_file(). What is_written_in_place() isn't
    synced, and gets no `mode`; a pipe waits for its reader; standard output is flushed_output(). An
    OSError, also for a foreign file or from `pieces`, has this path, or the name of standard
    output. After it a plain file is as replace_file() leaves it; what is written in place may have
    a part."""
    if path == STANDARD_OUTPUT:
        with flushed_output():
            sys.stdout.writelines(pieces)
        return
    try:
        refuse_foreign_file(path)
        if is_written_in_place(path):
            with open(path, 'w', **TEXT) as file:
                file.writelines(pieces)
        else:
            replace_file(os.path.realpath(path), pieces, mode)
    except OSError as error:
        raise OSError(error.errno, error.strerror, path) from error


def replace_file(path: str, pieces: Iterable[str], mode: int) -> None:
    """Writes a new file, renames it to an absolute path, and returns once that is durable. A link
    at the path is replaced, and other names of the old file keep its bytes. The new file is this
    user's; its mode is mode_of_replacement() without the bits that `mode` lacks. After an
    exception, also from `pieces`, it is gone and the old file stays, unless only the sync of the
    directory failed."""
    folder = os.path.dirname(path)
    # A name has up to 255 bytes, and a character up to four.
    descriptor, new_path = tempfile.mkstemp(prefix='.' + os.path.basename(path)[:50], dir=folder)
    try:
        with open(descriptor, 'w', **TEXT) as file:
            file.writelines(pieces)
            file.flush()
            os.fchmod(descriptor, mode_of_replacement(path) & mode)
            os.fsync(descriptor)
        os.replace(new_path, path)
    except BaseException:
        os.unlink(new_path)
        raise
    sync_directory(folder)


def mode_of_replacement(path: str) -> int:
    """The mode for a file that will replace what is at a path: that of the old file, without set-ID
    bits; if there is none, that of a new file, by read_umask()."""
    if os.path.exists(path):
        return os.stat(path).st_mode & 0o777
    return 0o666 & ~read_umask()


def read_umask() -> int:
    """The umask of this process. It is 0 for a moment, also for other threads."""
    umask = os.umask(0)
    os.umask(umask)
    return umask


def refuse_foreign_file(path: str) -> None:
    """OSError (EACCES) if at a path there is anything but a plain file, as a link or a pipe, in a
    sticky directory that everybody may write, as /tmp, unless this user or the directory's owner
    owns it. The target of a link isn't looked at."""
    if not os.path.lexists(path):
        return
    status, folder = os.lstat(path), os.stat(os.path.dirname(path) or '.')
    is_shared = folder.st_mode & stat.S_ISVTX and folder.st_mode & stat.S_IWOTH
    is_trusted = status.st_uid in (os.geteuid(), folder.st_uid)
    if is_shared and not is_trusted and not stat.S_ISREG(status.st_mode):
        raise OSError(errno.EACCES, 'another user made it, and it is no plain file', path)


def sync_directory(folder: str) -> None:
    """Makes the names in a directory durable. If this user may not read the directory, or its file
    system can't sync directories, nothing happens; any other error is an OSError."""
    try:
        directory = os.open(folder, os.O_RDONLY | os.O_DIRECTORY | os.O_CLOEXEC)
    except PermissionError:
        return
    try:
        os.fsync(directory)
    except OSError as error:
        if error.errno != errno.EINVAL:
            raise
    finally:
        os.close(directory)
