"""Gives proved libraries from one copy of the repository to another."""

from __future__ import annotations

import shutil
from pathlib import Path
from typing import Dict, Iterable


def library_folder(copy: Path, name: str) -> Path:
    """The folder of a crate's library in a copy of the repository; it may be missing."""
    return copy / 'crates' / name / 'out' / 'rlib'


def read_stamp(library: Path) -> bytes:
    """The stamp of a library's folder, which `rt` writes once the library is whole: a checksum of
    all texts that the library was made from, also of the crates below, and of the toolchain. Empty
    if there is no library, or only a part of one; OSError if the stamp can't be read."""
    stamp = library / 'stamp'
    return stamp.read_bytes() if stamp.is_file() else b''


def read_stamps(copy: Path, names: Iterable[str]) -> Dict[str, bytes]:
    """The stamps of the libraries that these crates have in a copy of the repository, as
    read_stamp() returns them; errors as there."""
    return {name: read_stamp(library_folder(copy, name)) for name in names}


def copy_library(source_copy: Path, target_copy: Path, name: str) -> None:
    """Copies the proved library of a crate between copies of the repository, so that `rt` doesn't
    prove it again. Does nothing if both have the same library, or none. OSError if the source has
    no library, or the library can't be copied: then the target has none, but there may be a part of
    one in `rlib.part`."""
    source_library = library_folder(source_copy, name)
    target_library = library_folder(target_copy, name)
    if read_stamp(source_library) == read_stamp(target_library):
        return
    partial_copy = target_library.with_name('rlib.part')
    for folder in (partial_copy, target_library):
        shutil.rmtree(folder, ignore_errors=True)
    partial_copy.parent.mkdir(parents=True, exist_ok=True)
    shutil.copytree(source_library, partial_copy, symlinks=True)
    partial_copy.rename(target_library)
