"""States as Linux mounts from a `crashfs serve` that listens, for a recovery that needs a mount."""

from __future__ import annotations

import os
import subprocess
from contextlib import contextmanager
from typing import Dict, Iterator, List, Set, Tuple

from crashfs_tools.checker.address import Address
from crashfs_tools.common.command import Refused

from .layout import Layout

NEEDS = "--serve needs root, the kernel's 9p, and a server with --client linux --ready --again"
# A mount or unmount is killed after so long: none of a server that answers takes it.
COMMAND_SECONDS = 60


class Mounts(Layout):
    """Mounts each state below a folder, as a run of its own, whose name no other check has."""

    def __init__(
        self, address: Address, uname: str, folder: str, environment: Dict[str, str]
    ) -> None:
        """uname is the user who attaches. The environment is that of the commands that mount.
        Nothing is mounted yet. Refused if uname has a comma, or if the host isn't known."""
        if ',' in uname:
            raise Refused(f'--uname {uname}: no mount can have a name with a comma')
        self.address = address
        self.host = address.ip_address()
        self.uname = uname
        self.folder = os.path.join(folder, 'mounts')
        self.environment = environment
        self.run = f'check-{os.urandom(8).hex()}'

    def states(self, wanted: Set[int]) -> Iterator[Tuple[int, str]]:
        """Yields each wanted state, ascending, with a path below the folder, at which laid_out()
        makes its directory. The server isn't asked here: if it lacks a state, laid_out() raises
        Refused. OSError if the folder can't be made."""
        os.makedirs(self.folder, exist_ok=True)
        for number in sorted(wanted):
            yield number, os.path.join(self.folder, str(number))

    @contextmanager
    def laid_out(self, number: int, directory: str) -> Iterator[None]:
        """Makes the directory, and mounts the state's run there. After the `with` the run is
        unmounted, and the directory removed. OSError if the directory can't be made or removed;
        Refused if the run can't be mounted or unmounted. After an exception the directory stays;
        after one within the `with` the run is unmounted nevertheless."""
        os.mkdir(directory)
        self.mount(f'{number}/{self.run}', directory)
        try:
            yield
        finally:
            unmount(directory)
        os.rmdir(directory)

    def mount_words(self, name: str, directory: str) -> List[str]:
        """The words of the command that mounts a state's run, which the server has under this name.
        Linux shows all files as those of this process's user; the rights that count are those of
        uname."""
        options = [
            'trans=tcp',
            f'port={self.address.port}',
            'version=9p2000',
            f'uname={self.uname}',
            f'aname={name}',
            f'dfltuid={os.getuid()}',
            f'dfltgid={os.getgid()}',
            'cache=mmap',
        ]
        return ['mount', '-t', '9p', '-o', ','.join(options), self.host, directory]

    def mount(self, name: str, directory: str) -> None:
        """Mounts the run that the server has under this name at an empty directory. Refused if that
        fails, OSError as run_on_directory()."""
        fault = run_on_directory(self.mount_words(name, directory), directory, self.environment)
        if fault:
            raise Refused(f'no mount of {name} from {self.address}: {fault} ({NEEDS})')


def unmount(directory: str) -> None:
    """Unmounts what is at a directory, lazily if a process that COMMAND left behind still uses it.
    Refused if it stays mounted; OSError as run_on_directory(). `umount` must run to its end also if
    the check is stopped: it doesn't get the check's environment, by which the guard finds processes
    to end."""
    environment = dict(os.environ)
    fault = run_on_directory(['umount', directory], directory, environment)
    if fault and run_on_directory(['umount', '-l', directory], directory, environment):
        raise Refused(f'{directory} stays mounted: {fault}')


def run_on_directory(words: List[str], directory: str, environment: Dict[str, str]) -> str:
    """Runs a command about a directory, in a session of its own, so that Ctrl-C doesn't end it.
    Returns an empty text if the command succeeds, else a line that says why it doesn't, without the
    directory's name: also if there is no such command, or if it is killed after COMMAND_SECONDS.
    OSError if it can't be started for another reason."""
    try:
        finished = subprocess.run(
            words,
            stdin=subprocess.DEVNULL,
            stdout=subprocess.DEVNULL,
            stderr=subprocess.PIPE,
            env=environment,
            timeout=COMMAND_SECONDS,
            start_new_session=True,
            check=False,
        )
    except FileNotFoundError:
        return f'there is no {words[0]}'
    except subprocess.TimeoutExpired:
        return f'{words[0]} had not ended after {COMMAND_SECONDS} seconds'
    if finished.returncode == 0:
        return ''
    lines = finished.stderr.decode('utf-8', 'replace').strip().splitlines()
    fault = lines[0] if lines else f'status {finished.returncode}'
    return fault.replace(f'{words[0]}: ', '', 1).replace(f'{directory}: ', '', 1).rstrip('.')
