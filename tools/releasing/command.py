"""The command release: makes the files that a user downloads, in dist/."""

from __future__ import annotations

import argparse
import os
import platform
import subprocess
import sys
import tempfile
from pathlib import Path
from typing import List, Optional

from building.crates import read_uses
from crashfs_tools import VERSION
from crashfs_tools.common.command import Refused
from gating.verdict import counts_of_passed_gate

from .archives import write_package, write_tarball
from .layout import release_items
from .linking import LinkFault, link_statically
from .programs import TOP, commit_of_tree, kit_version, linker_version, seconds_of_commit
from .statements import (
    BUILT,
    GIVEN,
    NOT_RUN,
    Provenance,
    attestation_text,
    built_module,
    checksum_lines,
    spdx_document,
)

ABOUT = """\
Makes the files that a user downloads, in dist/, from the program that tools/build proved.

It runs tools/build first, which takes seconds if nothing changed, unless an object file is given.
Then it writes crashfs-VERSION-linux-x86_64.tar.gz, with a static crashfs that runs on any Linux;
crashfs_VERSION_amd64.deb; SHA256SUMS; crashfs-VERSION.spdx.json, which lists what is linked; and
ATTESTATION, with the commit, the kit, the checksums of the object file and of the program, and the
counts of the gate. Times are those of the commit (or SOURCE_DATE_EPOCH), so two runs on one machine
give the same bytes. It needs gcc, git, rt and dpkg-deb.

The log of the gate must be of `.ci/run --all-edits`, of this commit, of a clean tree and of this
toolchain, and say status 0 and 0 failed; any other is refused.

Exit status 0: all is written. 1: something is missing, a program failed, or the log is refused. 2:
the command line."""
OBJECT_FILE = TOP / 'crates' / 'crashfs' / 'out' / 'crashfs.o'


def read_provenance(gate_log: Optional[Path], object_origin: str) -> Provenance:
    """The provenance of a release from the tree and the tools as they are; object_origin is BUILT
    or GIVEN. The gate's counts are from its log, or NOT_RUN without one; the time is
    SOURCE_DATE_EPOCH, else that of the commit. ValueError as counts_of_passed_gate(), or if
    SOURCE_DATE_EPOCH is no number; OSError if the log can't be read; errors as kit_version()."""
    commit, kit = commit_of_tree(), kit_version()
    seconds = int(os.environ.get('SOURCE_DATE_EPOCH') or seconds_of_commit())
    gate = NOT_RUN
    if gate_log is not None:
        gate = counts_of_passed_gate(gate_log.read_text(errors='replace'), commit, kit)
    c_library = ' '.join(platform.libc_ver())
    return Provenance(
        version=VERSION,
        commit=commit,
        kit=kit,
        seconds=seconds,
        gate=gate,
        object_origin=object_origin,
        linker=linker_version(),
        c_library=c_library,
    )


def link_program(object_file: Path) -> bytes:
    """Links an object file statically, and returns the bytes of the program; no file is left.
    Errors as link_statically(), and OSError if no temporary file can be written."""
    with tempfile.TemporaryDirectory(prefix='crashfs-release-') as temporary:
        program = Path(temporary) / 'crashfs'
        link_statically(object_file, program)
        return program.read_bytes()


def write_release(provenance: Provenance, object_file: Path, folder: Path) -> None:
    """Links an object file, and writes the five files of a release into a folder, which is made if
    it isn't there. Files of these names are replaced, SHA256SUMS last. Errors as link_program() and
    release_items() before anything is written. After another OSError, a CalledProcessError, or a
    Refused of read_uses() some of the files may be there."""
    program = link_program(object_file)
    items = release_items(program, built_module(provenance).encode())
    folder.mkdir(parents=True, exist_ok=True)
    tarball = folder / f'crashfs-{provenance.version}-linux-x86_64.tar.gz'
    package = folder / f'crashfs_{provenance.version}_amd64.deb'
    write_tarball(tarball, items, provenance.seconds)
    write_package(package, provenance.version, items, provenance.seconds)
    spdx = folder / f'crashfs-{provenance.version}.spdx.json'
    spdx.write_text(spdx_document(provenance, read_uses(TOP)))
    attestation = folder / 'ATTESTATION'
    attestation.write_text(attestation_text(provenance, object_file.read_bytes(), program))
    (folder / 'SHA256SUMS').write_text(checksum_lines([tarball, package, spdx, attestation]))


def make_parser() -> argparse.ArgumentParser:
    """The parser of the command line of release. Whether the named files exist isn't checked."""
    parser = argparse.ArgumentParser(
        prog='release', description=ABOUT, formatter_class=argparse.RawDescriptionHelpFormatter
    )
    parser.add_argument(
        '--gate',
        type=Path,
        metavar='FILE',
        help='what .ci/run --all-edits printed for this commit; ATTESTATION has its counts',
    )
    parser.add_argument(
        '--objects',
        type=Path,
        metavar='FILE',
        help='the object file of the program; ATTESTATION says that it was given',
    )
    parser.add_argument(
        '--into',
        type=Path,
        metavar='FOLDER',
        default=TOP / 'dist',
        help='where the files are written (dist)',
    )
    return parser


def main(words: Optional[List[str]] = None) -> int:
    """Runs release with these words, or with those of its command line if they are None, and
    returns its status: 1, after a line that says why, if something is missing, fails or is refused.
    The log of the gate is read before anything is built. Waits for the build without limit. A wrong
    word and --help end the program (SystemExit)."""
    options = make_parser().parse_args(words)
    try:
        provenance = read_provenance(options.gate, GIVEN if options.objects else BUILT)
        if options.objects is None:
            subprocess.run([TOP / 'tools' / 'build'], check=True)
        write_release(provenance, options.objects or OBJECT_FILE, options.into)
    except (LinkFault, Refused, ValueError, OSError, subprocess.CalledProcessError) as fault:
        print(f'release: {fault}', file=sys.stderr)
        return 1
    return 0
