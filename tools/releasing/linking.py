"""Links the program statically, from the objects that the toolchain compiled what it proved to."""

from __future__ import annotations

import os
import shutil
import subprocess
from pathlib import Path

# What a static program of glibc can't do: load the name services by which host names are found.
KNOWN_WARNING = "Using 'getaddrinfo' in statically linked applications"


class LinkFault(Exception):
    """The program can't be linked: the text says why, and has what the linker printed."""


def kit_folder() -> Path:
    """The folder of the toolchain. The first line that `rt doc` prints, whatever its status is, is
    the path of a page in it. If there is no such page, it is the parent of the folder that has the
    program `rt`, links resolved. LinkFault if there is no `rt` on PATH."""
    command = shutil.which('rt')
    if command is None:
        raise LinkFault('rt: not found on PATH')
    completed = subprocess.run([command, 'doc'], stdout=subprocess.PIPE, text=True)
    page = Path(completed.stdout.strip().splitlines()[0]) if completed.stdout.strip() else None
    if page is not None and page.is_file():
        return page.parent
    return Path(os.path.realpath(command)).parent.parent


def link_statically(object_file: Path, program: Path) -> None:
    """Links an object file and the toolchain's two C libraries into a static program, without
    symbols or a build id: the same object file gives the same bytes. Prints gcc's warnings on
    standard output, except KNOWN_WARNING and the lines that name a warning's function. LinkFault if
    gcc fails or there is no `rt`, OSError if there is no gcc."""
    kit = kit_folder()
    libraries = [str(kit / 'c' / name) for name in ('libos_c.a', 'liblibc_c.a')]
    options = ['-static', '-s', '-Wl,--build-id=none', '-o', str(program)]
    completed = subprocess.run(
        ['gcc', *options, str(object_file), *libraries, '-lm', '-lpthread'],
        stdout=subprocess.PIPE,
        stderr=subprocess.STDOUT,
        text=True,
    )
    if completed.returncode:
        raise LinkFault(f'gcc: status {completed.returncode}\n{completed.stdout}')
    for line in completed.stdout.splitlines():
        if KNOWN_WARNING not in line and 'in function' not in line:
            print(line)
