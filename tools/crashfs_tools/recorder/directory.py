"""Scans a directory on the disk for what a trace can have of it, and what it can't."""

from __future__ import annotations

import grp
import os
import pwd
import stat
from dataclasses import dataclass, field
from typing import Callable, Dict, List, Optional, Tuple, Union

from crashfs_tools.common import limits
from crashfs_tools.common.file_bytes import read_file_bytes
from crashfs_tools.common.trace import NEWEST_VERSION, SINCE, Header, Start, StartSymlink
from crashfs_tools.common.tree import path_fault

# Returns whether a path of the directory is ignored.
IsIgnored = Callable[[str], bool]
ScannedEntry = Union[Start, StartSymlink]
# The bits of a mode that a trace has: the rights of owner, group and others.
PERMISSIONS = 0o777


@dataclass
class Scan:
    """The entries of a directory, each after its own directory. links has the first path of a file
    by each of its further paths. omissions has paths of entries that no trace can have, each with
    the reason; notes has paths of entries, each with something of the entry that no trace has, and
    that changes no verdict on a crash state. By path, extra_mode_bits has the bits of modes beyond
    777, and attributes the extended attributes, of the entries that have some."""

    header: Header
    entries: List[ScannedEntry] = field(default_factory=list)
    links: Dict[str, str] = field(default_factory=dict)
    omissions: List[Tuple[str, str]] = field(default_factory=list)
    notes: List[Tuple[str, str]] = field(default_factory=list)
    extra_mode_bits: Dict[str, int] = field(default_factory=dict)
    attributes: Dict[str, Dict[str, bytes]] = field(default_factory=dict)


def user_name(number: int) -> str:
    """The name of the user with this number, or `u` and the number if the system knows no name."""
    try:
        return pwd.getpwuid(number).pw_name
    except (KeyError, OverflowError):
        return f'u{number}'


def group_name(number: int) -> str:
    """The name of the group with this number, or `g` and the number if the system knows no
    name."""
    try:
        return grp.getgrgid(number).gr_name
    except (KeyError, OverflowError):
        return f'g{number}'


def scan_directory(top: str, is_ignored: IsIgnored, version: Optional[int] = None) -> Scan:
    """What traces of a version, or of the newest one (None), can have of the directory `top`, and
    what they can't. Ignored paths, and what is below them, are left out. A file that also has a
    name outside the directory, or an ignored one, is noted. OSError if the directory isn't there,
    or if an entry can't be read or is removed meanwhile."""
    status = os.stat(top)
    owner, group = user_name(status.st_uid), group_name(status.st_gid)
    header = Header(owner, group, status.st_mode & PERMISSIONS)
    scanner = Scanner(top, is_ignored, version or NEWEST_VERSION, header)
    scanner.scan_below('')
    for inode, path in scanner.first_paths.items():
        if scanner.unseen_names[inode] > 0:
            scanner.scan.notes.append((path, 'a name outside the directory'))
    return scanner.scan


class Scanner:
    """Reads a directory into `scan`. For each file with several names, by its device and inode,
    first_paths has the path that was found first, and unseen_names how many of its names were not
    found yet."""

    def __init__(self, top: str, is_ignored: IsIgnored, version: int, header: Header) -> None:
        """Reads nothing yet. The header is that of the directory `top`."""
        self.top, self.is_ignored, self.version = top, is_ignored, version
        self.scan = Scan(header)
        self.first_paths: Dict[Tuple[int, int], str] = {}
        self.unseen_names: Dict[Tuple[int, int], int] = {}

    def scan_below(self, parent: str) -> None:
        """Adds the entries of a directory that aren't ignored, in the order of their names, and
        what is below them. `parent` is the directory's path in the scan, but empty for the root.
        OSError as in scan_directory()."""
        with os.scandir(self.top + parent) as entries:
            names = sorted(entry.name for entry in entries)
        for name in names:
            path = f'{parent}/{name}'
            if not self.is_ignored(path):
                self.add_entry(path, os.lstat(self.top + path))

    def add_entry(self, path: str, status: os.stat_result) -> None:
        """Adds the entry at a path, and what is below it. `status` is the entry's, not that of a
        link's target. If a trace can't have the entry, it is added to the omissions, and nothing
        below it is added. OSError as in scan_directory()."""
        fault = path_fault(path) or self.kind_fault(path, status)
        if fault:
            self.scan.omissions.append((path, fault))
            return
        extra_bits = stat.S_IMODE(status.st_mode) & ~PERMISSIONS
        if extra_bits:
            self.scan.extra_mode_bits[path] = extra_bits
        attributes = read_attributes(self.top + path)
        if attributes:
            self.scan.attributes[path] = attributes
        if stat.S_ISREG(status.st_mode) and status.st_nlink > 1:
            self.count_path(path, status)
        self.scan.entries.append(read_entry(self.top, path, status))
        if stat.S_ISDIR(status.st_mode):
            self.scan_below(path)

    def kind_fault(self, path: str, status: os.stat_result) -> str:
        """Why a trace of the version can't have the entry at a path, because of the kind or size in
        its status, or of a link's target; empty if it can. OSError if the entry is a symbolic link
        that was removed meanwhile."""
        if stat.S_ISDIR(status.st_mode):
            return ''
        if stat.S_ISLNK(status.st_mode) and self.version >= SINCE[StartSymlink]:
            return target_fault(os.readlink(self.top + path))
        if not stat.S_ISREG(status.st_mode):
            return name_of_omitted_kind(status.st_mode)
        most = limits.most_file_bytes(self.version)
        return f'a file of more than {most} bytes' if status.st_size > most else ''

    def count_path(self, path: str, status: os.stat_result) -> None:
        """Counts a path of a file that has several names; to be called once for each path, in the
        order of the scan. A path that isn't the file's first is added to the scan's links."""
        inode = status.st_dev, status.st_ino
        first_path = self.first_paths.setdefault(inode, path)
        self.unseen_names[inode] = self.unseen_names.get(inode, status.st_nlink) - 1
        if first_path != path:
            self.scan.links[path] = first_path


def read_attributes(path: str) -> Dict[str, bytes]:
    """The extended attributes of a file, or of a symbolic link itself, by their names. Empty also
    if one of them can't be read, or if the file system has none."""
    try:
        names = os.listxattr(path, follow_symlinks=False)
        return {name: os.getxattr(path, name, follow_symlinks=False) for name in names}
    except OSError:
        return {}


def name_of_omitted_kind(mode: int) -> str:
    """The kind of a file that a trace can't have, in words, by the file's mode: `a symbolic link`,
    `a socket`, `a named pipe`, and `a device` for any other."""
    kinds = {
        stat.S_IFLNK: 'a symbolic link',
        stat.S_IFSOCK: 'a socket',
        stat.S_IFIFO: 'a named pipe',
    }
    return kinds.get(stat.S_IFMT(mode), 'a device')


def target_fault(target: str) -> str:
    """Why no version of a trace can have a symbolic link with this target; empty if one can."""
    try:
        target.encode()
    except UnicodeEncodeError:
        return 'a symbolic link to a name that is not UTF-8'
    return ''


def read_entry(top: str, path: str, status: os.stat_result) -> ScannedEntry:
    """The start line of a trace for an entry: a file with all its bytes, a directory, or a symbolic
    link. `path` is below the directory `top`, and `status` is the entry's, not that of a link's
    target. OSError if the entry can't be read."""
    owner, group = user_name(status.st_uid), group_name(status.st_gid)
    if stat.S_ISLNK(status.st_mode):
        return StartSymlink(path, owner, group, os.readlink(top + path))
    data = None
    if stat.S_ISREG(status.st_mode):
        with open(top + path, 'rb', buffering=0) as file:
            data = read_file_bytes(file.fileno())
    return Start(path, owner, group, status.st_mode & PERMISSIONS, data)
