"""Disk images: made once, copied, repaired and mounted."""

from __future__ import annotations

import ctypes
import errno
import os
import subprocess
import time
from contextlib import contextmanager
from typing import Iterator, Sequence

from crashfs_tools.common.command import Refused
from crashfs_tools.common.file_bytes import data_ranges

from .filesystems import HOLE_PROGRAM, FileSystem
from .loops import attached_loop_device
from .system_calls import last_error, libc

UMOUNT_TRIES, UMOUNT_SECONDS = 50, 0.05
PIECE_BYTES = 1 << 20
# The highest status of e2fsck after which the file system can be mounted.
REPAIRED = 3


def make_image(filesystem: FileSystem, image: str) -> None:
    """Makes an empty file system in a new image. FileExistsError if the image is there. Refused if
    the file system's program fails, OSError if that isn't installed: in both cases the image
    stays."""
    with open(image, 'xb') as file:
        file.truncate(filesystem.size)
    run_program([filesystem.program, *filesystem.words, image])


def dig_holes(image: str) -> None:
    """Turns the zeros in an image, such as those of a new log, into holes, so that copies are
    faster. Refused if that fails, OSError if HOLE_PROGRAM isn't installed."""
    run_program([HOLE_PROGRAM, '--dig-holes', image])


@contextmanager
def mounted_image(filesystem: FileSystem, image: str, mount_point: str) -> Iterator[str]:
    """Within this an image is mounted at a directory, which is made if it isn't there, and stays.
    Yields the directory's path. After the unmount the loop device is free again. Refused as
    open_loop_device(), or if the image can't be mounted. OSError as open_loop_device(), or if the
    directory can't be made, and at the end as unmount_directory()."""
    os.makedirs(mount_point, exist_ok=True)
    with attached_loop_device(image) as device:
        mount_device(filesystem, device, mount_point)
    try:
        yield mount_point
    finally:
        unmount_directory(mount_point)


def mount_device(filesystem: FileSystem, device: str, mount_point: str) -> None:
    """Mounts a device with the file system's options, by the system call: the program `mount` takes
    four times as long. Refused if it can't be mounted."""
    type_name, options = filesystem.type.encode(), filesystem.options.encode()
    if libc.mount(os.fsencode(device), os.fsencode(mount_point), type_name, 0, options):
        reason = os.strerror(ctypes.get_errno())
        raise Refused(f'--disks: an image of {filesystem.name} can not be mounted: {reason}')


def unmount_directory(mount_point: str) -> None:
    """Unmounts what is mounted at a directory. While it is in use, this tries up to UMOUNT_TRIES
    times, and waits for UMOUNT_SECONDS after each: the kernel may use it for a moment longer.
    OSError if it is in use even then, or if nothing is mounted there."""
    for _ in range(UMOUNT_TRIES):
        if libc.umount2(os.fsencode(mount_point), 0) == 0:
            return
        if ctypes.get_errno() != errno.EBUSY:
            break
        time.sleep(UMOUNT_SECONDS)
    raise last_error(mount_point)


def copy_image(image: str, copy: str) -> None:
    """Copies an image to the path `copy`; the bytes of a file that is there are replaced. Holes
    stay holes. After an OSError a part of the copy is left."""
    with open(image, 'rb') as source_file, open(copy, 'wb') as target_file:
        size = os.fstat(source_file.fileno()).st_size
        target_file.truncate(size)
        for offset, end in data_ranges(source_file.fileno(), size):
            copy_range(source_file.fileno(), target_file.fileno(), offset, end)


def copy_range(source: int, target: int, offset: int, end: int) -> None:
    """Copies the bytes from an offset to before `end` of an open file to the same place of another
    one, or as far as the first one has them. The offsets of both descriptors change. OSError if one
    can't be read or written."""
    os.lseek(source, offset, os.SEEK_SET)
    os.lseek(target, offset, os.SEEK_SET)
    while offset < end:
        count = os.sendfile(target, source, None, min(end - offset, PIECE_BYTES))
        if count == 0:
            return
        offset += count


def repair_image(filesystem: FileSystem, image: str) -> None:
    """Repairs an image after a crash if its file system has no log: otherwise it couldn't be
    mounted. Any other image stays as it is, since the mount replays its log. Refused if the image
    can't be repaired, OSError if the program isn't installed."""
    if filesystem.repair:
        run_program([*filesystem.repair, image], highest_status=REPAIRED)


def run_program(words: Sequence[str], highest_status: int = 0) -> None:
    """Runs a program, and waits for it without limit. Refused, with the first line that it printed,
    or its status if it printed none, if the status is above `highest_status`, or if a signal ended
    it. OSError if it can't be started."""
    completed = subprocess.run(
        words,
        stdin=subprocess.DEVNULL,
        stdout=subprocess.PIPE,
        stderr=subprocess.STDOUT,
        check=False,
    )
    if not 0 <= completed.returncode <= highest_status:
        lines = completed.stdout.decode('utf-8', 'replace').strip().splitlines()
        cause = lines[0] if lines else f'it failed with status {completed.returncode}'
        raise Refused(f'--disks: {words[0]}: {cause}')
