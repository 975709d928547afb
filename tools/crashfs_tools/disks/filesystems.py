"""The file systems that a session can be replayed on, and what this machine lacks for them."""

from __future__ import annotations

import os
import shutil
from dataclasses import dataclass, replace
from typing import Dict, List, Optional, Sequence, Tuple

from crashfs_tools.common.command import Refused
from crashfs_tools.common.sparse import PAGE_BYTES, runs_of
from crashfs_tools.common.trace import (
    Creat,
    Link,
    Mkdir,
    Start,
    Symlink,
    Trace,
    Write,
)

from .loops import LOOP_CONTROL
from .own_mounts import own_mounts_fault

MEBIBYTE = 1 << 20
# So many images of each file system a process has at once: the start, the disk, and its copy.
IMAGES = 3
# The program that makes holes in any image.
HOLE_PROGRAM = 'fallocate'
# An inode for each block, also in images of 512 MiB and more, which have fewer by default.
EXT_BLOCKS = ('-q', '-F', '-b', '4096', '-i', '4096')
LAZY = ('-E', 'lazy_itable_init=0,lazy_journal_init=0')


@dataclass(frozen=True)
class FileSystem:
    """How a file system is made and mounted. name is that of --disks, and type the one that
    mount(2) takes. words are those of `program` before the image's path; size is the image's, in
    bytes. options are the data of mount(2): those of all file systems, such as `ro`, are flags, and
    refused. repair is the command that an image needs after a crash; empty if a log is replayed."""

    name: str
    type: str
    words: Tuple[str, ...]
    size: int
    options: str = ''
    repair: Tuple[str, ...] = ()

    @property
    def program(self) -> str:
        """The name of the program that makes the file system in an image."""
        return f'mkfs.{self.type}'

    @property
    def programs(self) -> Tuple[str, ...]:
        """The names of all programs that its images need; mount(2) needs none."""
        return (self.program, *self.repair[:1], HOLE_PROGRAM)


EXT4 = FileSystem('ext4', 'ext4', (*EXT_BLOCKS, '-J', 'size=4', *LAZY), 24 * MEBIBYTE)


def ext4_with(name: str, options: str) -> FileSystem:
    """ext4 with another name and with these options, the data of mount(2)."""
    return replace(EXT4, name=name, options=options)


# The file systems of --disks, by name.
KNOWN: Dict[str, FileSystem] = {
    filesystem.name: filesystem
    for filesystem in (
        EXT4,
        ext4_with('ext4-writeback', 'data=writeback'),
        ext4_with('ext4-nodelalloc', 'nodelalloc'),
        FileSystem('ext2', 'ext2', EXT_BLOCKS, 24 * MEBIBYTE, repair=('e2fsck', '-f', '-y')),
        FileSystem('xfs', 'xfs', ('-q', '-f'), 320 * MEBIBYTE),
        FileSystem('btrfs', 'btrfs', ('-q', '-f'), 120 * MEBIBYTE),
        FileSystem('f2fs', 'f2fs', ('-q', '-f'), 64 * MEBIBYTE),
    )
}
# An image of the usual size has room for so many bytes of a session.
USUAL_BYTES = 8 * MEBIBYTE
# The operations that make a name where none was; a rename moves one.
NAME_MAKERS = (Creat, Mkdir, Link, Symlink)


def with_room_for(filesystem: FileSystem, session_bytes: int) -> FileSystem:
    """The file system with images that have room for a session of session_bytes bytes. Each byte
    above USUAL_BYTES adds two to the size, rounded up to whole MiB, since a file system may keep a
    file's old bytes until the new ones are committed."""
    extra_bytes = max(0, session_bytes - USUAL_BYTES)
    return replace(filesystem, size=filesystem.size + -(-2 * extra_bytes // MEBIBYTE) * MEBIBYTE)


def most_session_bytes(trace: Trace) -> int:
    """How many bytes on a disk a session takes at most. Each run of bytes, of a file of the start
    tree or of a write, takes its size and two pages, since its first and last page may have other
    bytes too. Each name, of the start tree or made later, takes a page with its inode. Truncates
    add nothing: they make holes."""
    start_data = [line.data for line in trace.start if isinstance(line, Start)]
    sizes = [len(run) for data in start_data if data is not None for _, run in runs_of(data)]
    sizes += [len(operation.data) for operation in trace.operations if isinstance(operation, Write)]
    new_names = sum(isinstance(operation, NAME_MAKERS) for operation in trace.operations)
    name_bytes = (len(trace.start) + new_names) * PAGE_BYTES
    return name_bytes + sum(size + 2 * PAGE_BYTES for size in sizes)


def filesystems_by_names(disk_names: Sequence[str]) -> List[FileSystem]:
    """The file systems that --disks names, each once, in the order of the names. Refused if a name
    isn't known. Whether this machine has them isn't checked."""
    unknown = [name for name in disk_names if name not in KNOWN]
    if unknown:
        raise Refused(f'--disks {unknown[0]}: no such file system (known: {", ".join(KNOWN)})')
    return [KNOWN[name] for name in dict.fromkeys(disk_names)]


def require_filesystems(names: Sequence[str]) -> None:
    """Refused if --disks names an unknown file system, or if missing_requirement() finds one: root,
    mounts of its own, loop devices, or a program. Whether the kernel can mount them isn't tried.
    OSError if the system can't fork."""
    missing = missing_requirement(filesystems_by_names(names))
    if missing is not None:
        raise Refused(f'--disks: {missing}')


def missing_requirement(filesystems: Sequence[FileSystem]) -> Optional[str]:
    """The first requirement of these file systems that this machine or user doesn't meet, in words;
    None if all are met. Whether the kernel can mount them isn't tried. OSError if the system can't
    fork."""
    if os.geteuid() != 0:
        return 'it needs root, to make and mount disk images'
    mounts_fault = own_mounts_fault()
    if mounts_fault is not None:
        return mounts_fault
    if not os.path.exists(LOOP_CONTROL):
        return f'it needs loop devices ({LOOP_CONTROL} is missing)'
    needs = ((filesystem.name, name) for filesystem in filesystems for name in filesystem.programs)
    for filesystem_name, program in needs:
        if shutil.which(program) is None:
            return f'{filesystem_name} needs {program}, which is not installed'
    return None
