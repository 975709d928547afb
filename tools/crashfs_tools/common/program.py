"""The program `crashfs`: where it is, and what it is asked. If there is none, the second reading of
this package takes its place."""

from __future__ import annotations

import io
import os
import re
import shutil
import subprocess
import tempfile
from contextlib import contextmanager
from functools import cached_property
from typing import Any, Dict, Iterator, List, Optional, Tuple, Union

from .archive import (
    ArchiveFault,
    Member,
    members_by_state,
    read_members,
    tree_of_members,
)
from .command import LIBRARY, Refused, ending_text
from .entry import Entries
from .forked_reading import ForkedReading
from .streams import poll_for_input

TOP = os.path.dirname(LIBRARY)
BUILT = os.path.join(TOP, 'crates', 'crashfs', 'out', 'crashfs')
BUILDER = os.path.join(LIBRARY, 'build')
READING = os.path.join(LIBRARY, 'crashfs_tools', 'reading', '__main__.py')
# The status of a command line that the program doesn't know.
UNKNOWN_OPTION = 2
PIECE_BYTES = 1 << 16
# No more is kept of what a program prints as an error: it may name a number of millions of digits.
ERROR_BYTES = 1 << 24
# So much of an archive is read at once.
ARCHIVE_BYTES = 1 << 18
# The first version that a program may refuse, and what it then says of its header.
NEW_VERSION, REFUSED = 4, 'Syntax'
EMPTY_TRACE = (
    '{"trace":%d,"profile":"blocks","block":4096,"owner":"root","group":"root","mode":"755"}\n'
)
# How the line of a state begins in a list.
STATE_LINE = re.compile('state ([0-9]+)(?: |$)')
# A shell's status for a program that can't be started.
NOT_STARTED = 126
# What the program says of a trace that it would take in parts.
TOO_LARGE = ('plan too large', 'too many micro-operations')


def can_be_built() -> bool:
    """Whether these tools are in a clone, which has `tools/build`. Installed tools don't have
    it."""
    return os.access(BUILDER, os.X_OK) and os.path.isdir(os.path.join(TOP, 'crates'))


RunningProgram = Union['subprocess.Popen[bytes]', ForkedReading]


class ProgramFault(Exception):
    """`crashfs` refused what it was asked, or failed. `status` is the program's; the exception's
    own text is the line that says why or, if nothing was printed, how the program ended. `text` has
    what it printed as an error, without blanks at both ends."""

    def __init__(self, status: int, error_text: bytes) -> None:
        """error_text is what the program printed as an error. Its last line becomes the
        exception's own text; if the command line was wrong, its first line, since the usage comes
        after that."""
        self.text = error_text.decode('utf-8', 'replace').strip()
        # A path in it may have other characters that end a line for Python, such as U+2028.
        lines = self.text.split('\n')
        line = lines[0 if status == UNKNOWN_OPTION else -1]
        super().__init__(line or f'crashfs {ending_text(status)}')
        self.status = status

    @property
    def is_unknown_option(self) -> bool:
        """Whether the program doesn't know an option, as one that is older than these tools."""
        return self.status == UNKNOWN_OPTION


class Crashfs:
    """One program file, or, if is_unproved, the second reading. refused_version is the version of
    traces that made another program refuse, so that this second reading is used; else 0. If
    has_sparse, it writes large files of archives in pieces, without zeros: program_for_version()
    finds out whether a program can."""

    def __init__(
        self,
        path: str,
        *,
        is_unproved: bool = False,
        refused_version: int = 0,
        has_sparse: bool = False,
    ) -> None:
        self.path = path
        self.is_unproved = is_unproved
        self.refused_version = refused_version
        self.has_sparse = has_sparse

    @staticmethod
    def find_or_second_reading(crashfs_option: Optional[str], *, is_unproved: bool) -> Crashfs:
        """The program, as find() finds it; the second reading if there is none, or if is_unproved,
        without a look at `crashfs_option`. The result's own is_unproved says which of the two it
        is. Refused if --crashfs names no program."""
        program = None if is_unproved else Crashfs.find(crashfs_option)
        return program or Crashfs.second_reading()

    @staticmethod
    def second_reading(refused_version: int = 0) -> Crashfs:
        """The second reading as a program. `refused_version` is the version of traces that another
        program refused; 0 if the second reading is used for another reason."""
        return Crashfs(READING, is_unproved=True, refused_version=refused_version, has_sparse=True)

    @staticmethod
    def find(crashfs_option: Optional[str]) -> Optional[Crashfs]:
        """The program that --crashfs names, by a path or a name in PATH; it isn't started. Without
        --crashfs (None) it is `crashfs` in PATH, else the one that was installed with these tools
        or built here, and None if there is none. Refused if --crashfs names no program."""
        if crashfs_option is None:
            path = shutil.which('crashfs') or program_of_tools(LIBRARY)
            return None if path is None else Crashfs(path)
        path = shutil.which(crashfs_option)
        if path is None:
            raise Refused(f'--crashfs {crashfs_option}: no such program')
        return Crashfs(os.path.abspath(path))

    def program_for_version(self, version: int) -> Crashfs:
        """This program for traces of a version, with has_sparse if it can write large files in
        pieces; or, if it doesn't read such traces, the second reading, with the version as
        refused_version. Versions before NEW_VERSION each program reads: for these it isn't started,
        and has_sparse stays as it is. OSError as can_read_version()."""
        if self.is_unproved or version < NEW_VERSION:
            return self
        if not self.can_read_version(version):
            return Crashfs.second_reading(refused_version=version)
        return Crashfs(self.path, has_sparse='--sparse' in self.tar_help)

    def can_read_version(self, version: int) -> bool:
        """Whether the program reads traces of a version: it is started with a trace that has only a
        header. Any ProgramFault without REFUSED counts as yes, since the next command reports it.
        OSError if no temporary file can be written, or as start()."""
        with tempfile.NamedTemporaryFile('w', suffix='.trace') as file:
            file.write(EMPTY_TRACE % version)
            file.flush()
            try:
                self.output_of(['list', '--trace', file.name])
            except ProgramFault as fault:
                return REFUSED not in fault.text
        return True

    @cached_property
    def tar_help(self) -> str:
        """The text of `crashfs tar --help`; an empty text if the program fails. It is started only
        the first time. OSError as start()."""
        try:
            return self.output_of(['tar', '--help'])
        except ProgramFault:
            return ''

    @property
    def has_tar_changes(self) -> bool:
        """Whether the program has `tar --changes`, by its help; False if it doesn't print help."""
        return '--changes' in self.tar_help

    def output_of(self, words: List[str], environment: Optional[Dict[str, str]] = None) -> str:
        """What a command prints on standard output; what it prints as an error is dropped.
        ProgramFault if its status isn't 0; other errors as start() raises them. An `environment` of
        None means that of this process, which the second reading always has."""
        return output_of_started(self.start(words, environment))

    def start(self, words: List[str], environment: Optional[Dict[str, str]]) -> RunningProgram:
        """Starts a command, with pipes as its two outputs and no input. The caller must read both
        and wait for it. ProgramFault if the program can't be started. The second reading is a fork
        of this process, and ignores `environment`: OSError if the system can't fork, or has no more
        pipes."""
        if os.path.realpath(self.path) == READING:
            return ForkedReading(words)
        try:
            return subprocess.Popen(
                [self.path, *words],
                stdin=subprocess.DEVNULL,
                stdout=subprocess.PIPE,
                stderr=subprocess.PIPE,
                env=environment,
            )
        except OSError as error:
            error_text = f'{self.path}: {error.strerror}'
            raise ProgramFault(NOT_STARTED, error_text.encode()) from error

    @contextmanager
    def open_archive(
        self, words: List[str], environment: Optional[Dict[str, str]] = None
    ) -> Iterator[Iterator[Member]]:
        """Yields the entries of the archive that `crashfs tar` writes, as a stream that can be read
        once, within the `with`; its end drops what wasn't read. ProgramFault at the end if the
        program failed, or if an ArchiveFault was raised within. Any other exception within kills
        the program, and is raised. Errors as start() too."""
        sparse = ['--sparse'] if self.has_sparse else []
        child = self.start(['tar', *sparse, *words], environment)
        assert child.stdout is not None and child.stderr is not None
        output = ProgramOutput(child.stdout.fileno(), child.stderr.fileno())
        fault = ''
        try:
            yield read_members(io.BufferedReader(output, ARCHIVE_BYTES))
        except ArchiveFault as error:
            fault = f'; what it wrote is no archive: {error}'
        except BaseException:
            end_program(child)
            raise
        with child.stdout, child.stderr:
            # The program ends only once all that it prints is read.
            while output.read(PIECE_BYTES):
                pass
        status = child.wait()
        if status != 0 or fault:
            ending = f'crashfs tar {ending_text(status)}{fault}'
            raise ProgramFault(status, output.error_text or ending.encode())

    def count_states(self, trace: str, *, with_holes: bool = True) -> int:
        """How many states a trace has: its prefixes, and, if with_holes, also the holes; equal
        states count too. Errors as output_of(); ProgramFault also if the program prints no list."""
        listing = self.output_of(['list', '--trace', trace, *(['--holes'] if with_holes else [])])
        # The states are numbered from 0, and the last line is that of the last state.
        last_state = STATE_LINE.match(listing.rstrip('\n').rpartition('\n')[2])
        if last_state is None:
            raise ProgramFault(0, b'crashfs: what it printed is no list')
        return int(last_state[1]) + 1

    def tree_of_state(self, trace: str, state: int) -> Entries:
        """The tree of the state with this number, without the root. Errors as tree_with_root():
        ProgramFault if there is no such state, or if the program refuses the trace."""
        tree = self.tree_with_root(['--trace', trace, '--state', str(state)])
        tree.pop('/', None)
        return tree

    def trees(
        self, words: List[str], environment: Optional[Dict[str, str]] = None
    ) -> Iterator[Tuple[int, Entries]]:
        """The number and the tree, with the root, of each state that the option `--states` among
        the words names, in the order of its list; a number twice in a row gives one state. The
        program is started when the first is asked for, and killed if the iterator is closed early.
        Errors as open_archive(); ProgramFault too if the first name of a path isn't a number."""
        with self.open_archive(words, environment) as archive:
            for number, members in members_by_state(archive):
                yield number, tree_of_members(members)

    def tree_with_root(
        self, words: List[str], environment: Optional[Dict[str, str]] = None
    ) -> Entries:
        """The tree, with the root, of the state that the option `--state` among the words names.
        Errors as open_archive(), also if there is no such state."""
        with self.open_archive(words, environment) as archive:
            return tree_of_members(archive)


def program_of_tools(tools_folder: str) -> Optional[str]:
    """The program that goes with the tools in a folder: for a release, whose tools are in
    lib/crashfs, the one in its bin/; else the one that tools/build makes in this clone. None if
    that isn't there, or may not be executed."""
    parent_folder, name = os.path.split(tools_folder)
    is_release = name == 'crashfs' and os.path.basename(parent_folder) == 'lib'
    path = os.path.join(os.path.dirname(parent_folder), 'bin', 'crashfs') if is_release else BUILT
    return path if os.access(path, os.X_OK) else None


class ProgramOutput(io.RawIOBase):
    """A program's standard output, as a stream. While a read waits, it also takes what the program
    prints as an error, since the program would wait forever once that pipe is full; error_text has
    its last ERROR_BYTES. open_pipes has the pipes that haven't ended."""

    def __init__(self, output_pipe: int, error_pipe: int) -> None:
        """Takes the descriptors of two pipes, which the caller closes."""
        super().__init__()
        self.output_pipe = output_pipe
        self.open_pipes = {output_pipe, error_pipe}
        self.poll = poll_for_input(output_pipe, error_pipe)
        self.error_text = b''

    def readable(self) -> bool:
        """True, as RawIOBase asks of a stream that can be read."""
        return True

    def readinto(self, buffer: Any) -> int:
        """Waits without limit for standard output, and reads it into a buffer. Returns the number
        of bytes read; 0 once both outputs have ended. What is printed as an error until then is
        added to error_text."""
        while self.open_pipes:
            pipe, _ = self.poll.poll()[0]
            error_piece = b''
            if pipe == self.output_pipe:
                byte_count = os.readv(pipe, [buffer])
                if byte_count:
                    return byte_count
            else:
                error_piece = os.read(pipe, PIECE_BYTES)
                self.error_text = (self.error_text + error_piece)[-ERROR_BYTES:]
            if not error_piece:
                self.poll.unregister(pipe)
                self.open_pipes.remove(pipe)
        return 0


def output_of_started(child: RunningProgram) -> str:
    """Reads what a started command prints on standard output, up to its end, closes both pipes, and
    waits for the command. ProgramFault, with what it printed as an error, if its status isn't 0;
    else that is dropped."""
    assert child.stdout is not None and child.stderr is not None
    output = ProgramOutput(child.stdout.fileno(), child.stderr.fileno())
    with child.stdout, child.stderr:
        printed = output.readall()
    status = child.wait()
    if status != 0:
        raise ProgramFault(status, output.error_text)
    return printed.decode('utf-8', 'surrogateescape')


def end_program(child: RunningProgram) -> None:
    """Kills a program, waits for its end, and closes both pipes: what it printed and wasn't read is
    dropped."""
    assert child.stdout is not None and child.stderr is not None
    with child.stdout, child.stderr:
        child.kill()
        child.wait()


def is_plan_too_large(fault: Exception) -> bool:
    """Whether a fault of the program or of the second reading means that a trace is too long for
    one plan: the fault's text has one of TOO_LARGE."""
    message = fault.text if isinstance(fault, ProgramFault) else str(fault)
    return any(text in message for text in TOO_LARGE)
