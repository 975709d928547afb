"""The two archives of a release. The same files and the same time give the same bytes."""

from __future__ import annotations

import gzip
import hashlib
import io
import os
import subprocess
import tarfile
import tempfile
from datetime import datetime, timezone
from email.utils import formatdate
from pathlib import Path
from typing import List

from .layout import DOCUMENTS, Item, Items

MAINTAINER = 'Bavrikste maintainers <maintainers@users.noreply.bavrikste.example>'
SUMMARY = 'crash states of a storage application, checked and served over 9P2000'
DESCRIPTION = """\
 Records what a storage application does to its files, computes the states
 in which a crash may leave them, and runs a recovery command in each.
 .
 crashfs lists, archives and serves the states; crashfs-record makes a trace
 of a program by strace; crashfs-check runs the recovery and reports which
 missing sync loses what was acknowledged.
"""
# Until the owner has chosen one.
COPYRIGHT = """\
Format: https://www.debian.org/doc/packaging-manuals/copyright-format/1.0/
Upstream-Name: crashfs
Comment: No licence is given for crashfs yet: to use it, ask those from whom you have it.
 usr/bin/crashfs is linked statically with the GNU C Library, which the GNU Lesser General Public
 License covers (/usr/share/common-licenses/LGPL-2.1), and with the libraries of the kit that
 ATTESTATION and the SPDX list of the release name.

Files: *
Copyright: {year} the Bavrikste maintainers
License: none-given
 No licence has been given yet.
"""
# Lintian takes these for faults; each is meant.
LINTIAN_OVERRIDES = """\
# One program for every Linux, in the package as in the tarball.
crashfs: statically-linked-binary [usr/bin/crashfs]
# "env -S python3 -S" starts python3 with an option.
crashfs: unusual-interpreter -S [usr/lib/crashfs/crashfs_tools/reading/__main__.py]
"""

# Python's compiled files are made with the package, and go with it (Debian's Python policy 2.6).
SCRIPTS = {
    'postinst': '#!/bin/sh\nset -e\nif [ "$1" = configure ]; then\n'
    '    py3compile -p crashfs /usr/lib/crashfs\nfi\n',
    'prerm': '#!/bin/sh\nset -e\npy3clean -p crashfs\n',
}


def folders_of(items: Items) -> List[str]:
    """All folders above the items, except the top itself; sorted, so that each comes after the
    folder that it is in."""
    folders = {str(folder) for path in items for folder in Path(path).parents}
    return sorted(folders - {'.'})


def member_header(path: str, kind: bytes, mode: int, seconds: int) -> tarfile.TarInfo:
    """The header of a tar member that belongs to root. `kind` is a type of tarfile, such as
    DIRTYPE; `seconds` is the member's time, in seconds since 1970. The caller sets the size of a
    file and the target of a link."""
    header = tarfile.TarInfo(path)
    header.type, header.mode, header.mtime = kind, mode, seconds
    header.uname = header.gname = 'root'
    return header


def add_item(archive: tarfile.TarFile, path: str, item: Item, seconds: int) -> None:
    """Adds an item to an archive at a path, with its mode and a time in seconds since 1970."""
    kind = tarfile.SYMTYPE if item.is_link else tarfile.REGTYPE
    header = member_header(path, kind, item.mode, seconds)
    header.linkname, header.size = item.target, len(item.content)
    archive.addfile(header, io.BytesIO(item.content))


def add_folders(archive: tarfile.TarFile, paths: List[str], seconds: int) -> None:
    """Adds folders to an archive in their order, each with a time in seconds since 1970."""
    for path in paths:
        archive.addfile(member_header(path, tarfile.DIRTYPE, 0o755, seconds))


def add_items(archive: tarfile.TarFile, top: str, items: Items, seconds: int) -> None:
    """Adds items to an archive, below a folder `top`: first this folder and those of the items,
    then the items in their order. All members have the same time."""
    add_folders(archive, [top, *(f'{top}/{folder}' for folder in folders_of(items))], seconds)
    for path, item in items.items():
        add_item(archive, f'{top}/{path}', item, seconds)


def write_tarball(path: Path, items: Items, seconds: int) -> None:
    """Writes a tar.gz, in the place of a file that is there. All items are below a folder that has
    the name of the archive without its ending, which must be `.tar.gz`. The same items and seconds
    give the same bytes. After an OSError a part of the file may be there."""
    tar = io.BytesIO()
    with tarfile.open(fileobj=tar, mode='w', format=tarfile.GNU_FORMAT) as archive:
        add_items(archive, path.name[: -len('.tar.gz')], items, seconds)
    path.write_bytes(gzip.compress(tar.getvalue(), 9, mtime=seconds))


def write_below(folder: Path, items: Items, seconds: int) -> None:
    """Writes items below a folder of the disk, each with this time, and makes the folders that they
    need, whose times aren't set. Replaces files that are there. OSError if anything is in the place
    of a link, or a folder in the place of a file: the items before it are written."""
    for name, item in items.items():
        path = folder / name
        path.parent.mkdir(parents=True, exist_ok=True)
        if item.is_link:
            path.symlink_to(item.target)
        else:
            path.write_bytes(item.content)
            path.chmod(item.mode)
        os.utime(path, (seconds, seconds), follow_symlinks=False)


def control_text(version: str, items: Items) -> str:
    """The text of the package's control file. The installed size is in units of 1,024 bytes, each
    file's rounded up (Debian policy 5.6.20); links and folders count nothing."""
    size = sum((len(item.content) + 1023) // 1024 for item in items.values())
    return (
        f'Package: crashfs\nVersion: {version}\nArchitecture: amd64\nSection: devel\n'
        f'Priority: optional\nMaintainer: {MAINTAINER}\nInstalled-Size: {size}\n'
        f'Depends: python3 (>= 3.9)\nRecommends: strace (>= 5.18)\n'
        f'Description: {SUMMARY}\n{DESCRIPTION}'
    )


def write_control_files(folder: Path, control: str, checksums: str) -> None:
    """Makes the folder DEBIAN of a package, and writes its control file, its checksums, and
    SCRIPTS. FileExistsError if the folder is there; another OSError leaves a part of it."""
    folder.mkdir()
    for name, text in {'control': control, 'md5sums': checksums, **SCRIPTS}.items():
        file = folder / name
        file.write_text(text)
        file.chmod(0o755 if name in SCRIPTS else 0o644)


def write_package(path: Path, version: str, items: Items, seconds: int) -> None:
    """Writes a Debian package by dpkg-deb, in the place of a file that is there. The package has
    the items and those of with_debian_files() below /usr, and SCRIPTS. They are written to a
    temporary folder, which is removed. CalledProcessError if dpkg-deb fails, OSError if it isn't
    installed or a file can't be written."""
    with tempfile.TemporaryDirectory(prefix='crashfs-release-') as temporary:
        root = Path(temporary) / 'root'
        files = with_debian_files(items, version, seconds)
        write_below(root / 'usr', files, seconds)
        write_control_files(root / 'DEBIAN', control_text(version, files), checksums_below(root))
        for folder in [root, *(path for path in root.rglob('*') if path.is_dir())]:
            folder.chmod(0o755)
        # What xz writes depends on whether it has threads.
        environment = {**os.environ, 'SOURCE_DATE_EPOCH': str(seconds), 'DPKG_DEB_THREADS_MAX': '1'}
        subprocess.run(
            ['dpkg-deb', '--root-owner-group', '-Zxz', '--build', str(root), str(path)],
            check=True,
            env=environment,
            stdout=subprocess.DEVNULL,
        )


def checksums_below(root: Path) -> str:
    """The text of a package's file md5sums: a line for each file below a folder, sorted by path,
    but none for links. OSError if a file can't be read."""
    files = sorted(path for path in root.rglob('*') if path.is_file() and not path.is_symlink())
    return ''.join(
        f'{hashlib.md5(path.read_bytes()).hexdigest()}  {path.relative_to(root)}\n'
        for path in files
    )


def with_debian_files(items: Items, version: str, seconds: int) -> Items:
    """A copy of the items with three more files: the copyright and the changelog, which Debian's
    policy requires (12.5, 12.7), and lintian's overrides. `seconds` is the time of the release, in
    seconds since 1970."""
    year = datetime.fromtimestamp(seconds, timezone.utc).year
    changelog = (
        f'crashfs ({version}) unstable; urgency=medium\n\n'
        f'  * See CHANGELOG.md.\n\n'
        f' -- {MAINTAINER}  {formatdate(seconds)}\n'
    )
    return {
        **items,
        f'{DOCUMENTS}/copyright': Item(COPYRIGHT.format(year=year).encode()),
        f'{DOCUMENTS}/changelog.gz': Item(gzip.compress(changelog.encode(), 9, mtime=0)),
        'share/lintian/overrides/crashfs': Item(LINTIAN_OVERRIDES.encode()),
    }
