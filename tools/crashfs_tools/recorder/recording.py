"""A recording: the trace, what COMMAND acknowledged, and what the trace doesn't have."""

from __future__ import annotations

import stat
from dataclasses import dataclass, field
from typing import Callable, Dict, List, Optional, Set, Tuple

from crashfs_tools.common import limits
from crashfs_tools.common.trace import (
    BLOCK_SIZES,
    BLOCKS,
    JOURNAL,
    NEWEST_VERSION,
    WRITTEN_VERSION,
    Chmod,
    Creat,
    Header,
    Link,
    Mkdir,
    Operation,
    Rename,
    Say,
    Start,
    StartLine,
    StartSymlink,
    Symlink,
    Sync,
    Trace,
)
from crashfs_tools.common.tree import Tree, least_file_size

from .directory import PERMISSIONS
from .output_streams import AcknowledgingDescriptors, OutputStream, OutputStreams, SayEach
from .strace_log import Call

# The bits of a mode by which group and others may read.
READ_BY_ALL = stat.S_IRGRP | stat.S_IROTH


@dataclass(frozen=True)
class TraceSettings:
    """How a trace is made. acknowledging_descriptors and say_each are those of OutputStreams.
    `profile` says which directory operations the file system keeps in order, and `block` how many
    bytes the disk writes whole. The version None means the oldest one that has all that happens."""

    acknowledging_descriptors: AcknowledgingDescriptors = AcknowledgingDescriptors()
    say_each: Optional[SayEach] = None
    profile: str = BLOCKS
    block: int = BLOCK_SIZES[-1]
    version: Optional[int] = None


@dataclass
class Trouble:
    """Something that the trace doesn't have: what it is, the path or stream where it happened, and
    the numbers of the trace's lines after which it happened, ascending. A note (is_note) changes no
    verdict on the crash states."""

    what: str
    where: str
    is_note: bool = False
    lines: List[int] = field(default_factory=list)

    def __str__(self) -> str:
        """The trouble in words, as `/f: a symbolic link was made (after line 7, 2 times)`: only its
        first line is named. If it has no lines, there is nothing in brackets."""
        times = f', {len(self.lines)} times' if len(self.lines) > 1 else ''
        after = f' (after line {self.lines[0]}{times})' if self.lines else ''
        return f'{self.where}: {self.what}{after}'


def path_to_report(operation: Operation) -> str:
    """The path that a report on an operation names: the old one of a rename or a link, and `/` for
    a sync of everything or an acknowledgement."""
    if isinstance(operation, (Rename, Link)):
        return operation.source
    return '/' if isinstance(operation, (Sync, Say)) else operation.path


def is_private(trace: Trace) -> bool:
    """Whether a trace has, at any time, a file or directory that group and others may not both
    read: the root, or one of the start tree, or with the mode of a creat, mkdir or chmod."""
    modes = [trace.header.mode]
    modes += [line.mode for line in trace.start if isinstance(line, Start)]
    modes += [
        operation.mode
        for operation in trace.operations
        if isinstance(operation, (Creat, Mkdir, Chmod))
    ]
    return any(mode & READ_BY_ALL != READ_BY_ALL for mode in modes)


def symlink_reason(path: str) -> str:
    """The reason for the newest version if a symbolic link is at a path."""
    return f'{path} is a symbolic link'


def renamed_directory_reason(path: str) -> str:
    """The reason for the newest version if the directory at a path was renamed."""
    return f'{path} is a directory that was renamed'


def large_file_reason(path: str) -> str:
    """The reason for the newest version if the file at a path is larger than FILE_BYTES."""
    return f'{path} has more than {limits.FILE_BYTES:,} bytes'


class Recording:
    """The trace, the tree at its end, the streams that COMMAND writes to, and the troubles, in the
    order in which they came, by what they are and where they happened.

    current_call is the call that is translated now; None before the first and after the last. What
    is at one of differing_paths at the end may differ from the trace, as at the troubles' paths.
    change_count is how many operations but acknowledgements were added. version_reason says
    why the trace has the newest version, and is empty if it has another or if --trace-version asks
    for it. on_acknowledged is called after each acknowledgement. has_late_start means that
    --begin-after began the trace again."""

    def __init__(self, header: Header, settings: TraceSettings) -> None:
        """Begins a trace that has only the header, as begin_trace() does, and makes the streams
        that the settings ask for."""
        self.settings = settings
        self.troubles: Dict[Tuple[str, str], Trouble] = {}
        self.begin_trace(header)
        self.streams = OutputStreams(settings.acknowledging_descriptors, settings.say_each)
        self.differing_paths: Set[str] = set()
        self.current_call: Optional[Call] = None
        self.on_acknowledged: Callable[[Say], None] = lambda acknowledgement: None
        self.has_late_start = False
        self.change_count = 0

    def begin_trace(self, header: Header) -> None:
        """Begins the trace, in the oldest version that the settings allow, and a tree of the root
        only. An earlier trace and tree are dropped, and so are the lines of the troubles, which
        stay, as does all else of the recording, also change_count."""
        profile, block = self.settings.profile, self.settings.block
        version = self.settings.version or WRITTEN_VERSION
        self.trace = Trace(header, version=version, profile=profile, block=block)
        self.tree = Tree(header.owner, header.group, header.mode, block, version, profile)
        self.version_reason = ''
        for trouble in self.troubles.values():
            trouble.lines.clear()
        if profile == JOURNAL:
            self.use_newest_version(f'--profile {JOURNAL}')

    def add_start_line(self, line: StartLine) -> bool:
        """Adds a start line to the trace and its tree, and returns True. Nothing is checked: its
        directory must be there, and its path free. A symbolic link, or a file above FILE_BYTES,
        gives the trace the newest version. For a symbolic link that the version of --trace-version
        can't have it returns False, and adds nothing."""
        is_link = isinstance(line, StartSymlink)
        if is_link and not self.use_newest_version(symlink_reason(line.path)):
            return False
        if isinstance(line, Start) and len(line.data or b'') > limits.FILE_BYTES:
            self.use_newest_version(large_file_reason(line.path))
        self.trace.start.append(line)
        self.tree.add_start(line)
        return True

    def report(self, what: str, where: str) -> None:
        """Adds a trouble, as in add_trouble(): something that the trace doesn't have, and that may
        make a crash state good or bad."""
        self.add_trouble(what, where, is_note=False)

    def report_note(self, what: str, where: str) -> None:
        """Adds a note, as in add_trouble(): something that the trace doesn't have, and that can't
        make a crash state good or bad."""
        self.add_trouble(what, where, is_note=True)

    def note_extra_bits(self, path: Optional[str], mode: int) -> None:
        """Adds a note of the bits beyond 777 of a mode that the file or directory at a path of the
        trace gets. Nothing if the mode has none, or if the path is None: the trace lacks it."""
        if path is not None and mode & ~PERMISSIONS:
            self.report_note(f'it gets the mode bits {mode & ~PERMISSIONS:o}, beyond 777', path)

    def add_trouble(self, what: str, where: str, *, is_note: bool) -> None:
        """Adds a trouble: what happened, and where, which is a path or a stream. The last line that
        the trace has now becomes its line; it gets none if no call is translated. If there is a
        trouble with this `what` and `where`, only the line is added to it. A note (is_note) is as
        in report_note()."""
        new_trouble = Trouble(what, where, is_note=is_note)
        trouble = self.troubles.setdefault((what, where), new_trouble)
        if self.current_call is not None:
            trouble.lines.append(self.trace.line_number(len(self.trace.operations)) - 1)

    @property
    def may_have_newest_version(self) -> bool:
        """Whether the trace has the newest version, or gets it for an operation that needs it.
        False if --trace-version names an older one."""
        return self.trace.version >= NEWEST_VERSION or self.settings.version is None

    def use_newest_version(self, reason: str) -> bool:
        """Gives the trace and its tree the newest version, for this reason, unless they have it
        already, or --trace-version names an older one. Returns whether they have it now."""
        if self.trace.version < NEWEST_VERSION and self.may_have_newest_version:
            self.set_version(NEWEST_VERSION, reason)
        return self.trace.version >= NEWEST_VERSION

    def set_version(self, version: int, reason: str) -> None:
        """Gives the trace and its tree a version, and sets version_reason, which must be
        empty if the version isn't the newest."""
        self.trace.version = self.tree.version = version
        self.version_reason = reason

    def reason_for_newest_version(self, operation: Operation) -> str:
        """Why only the newest version may have an operation. Empty if older ones may have it too,
        as an fdatasync, which they have as a sync of all bytes; and if no version may, because of
        the file's size. The operation must not be applied to the tree yet."""
        if isinstance(operation, Symlink):
            return symlink_reason(operation.path)
        if isinstance(operation, Rename):
            entry = self.tree.entries.get(operation.source)
            is_directory = entry is not None and entry.is_directory
            return renamed_directory_reason(operation.source) if is_directory else ''
        is_large = limits.FILE_BYTES < least_file_size(operation) <= limits.LARGE_FILE_BYTES
        return large_file_reason(path_to_report(operation)) if is_large else ''

    def add_operation(self, operation: Operation) -> bool:
        """Adds an operation, with its call's note, to the trace and its tree, and returns True. The
        trace gets the newest version if the operation needs that. If the version can't have it, or
        `crashfs` would refuse it, it is reported and not added, and False is returned."""
        if isinstance(operation, Symlink) and not self.may_have_newest_version:
            self.report('a symbolic link was made', operation.path)
            return False
        old_version, old_reason = self.trace.version, self.version_reason
        reason = self.reason_for_newest_version(operation)
        if reason:
            self.use_newest_version(reason)
        fault = self.tree.fault(operation)
        if fault:
            self.set_version(old_version, old_reason)
            name = self.current_call.name if self.current_call else 'a change'
            self.report(f'{name} is left out: {fault}', path_to_report(operation))
            return False
        self.tree.apply(operation)
        if self.current_call is not None and self.current_call.note:
            self.trace.notes[len(self.trace.operations)] = self.current_call.note
        self.trace.operations.append(operation)
        if not isinstance(operation, Say):
            self.change_count += 1
        return True

    def add_output(self, stream: OutputStream, data: bytes) -> None:
        """Adds bytes that COMMAND wrote to a stream: an acknowledgement for each text that they
        complete, which is a line or the whole write. A line without its end waits in the stream. If
        the stream acknowledges nothing, its texts are only counted."""
        for text in stream.complete_texts(data, self.change_count):
            if stream.is_acknowledged:
                self.add_acknowledgement(stream, text)

    def add_acknowledgement(self, stream: OutputStream, text: bytes) -> None:
        """Adds an acknowledgement with this text, and calls on_acknowledged with it. If the text is
        cut at 1,024 bytes, or isn't UTF-8, that is reported; for a stream that acknowledges by
        writes it is only noted."""
        acknowledgement = Say.from_line(text)
        is_changed = acknowledgement.text.encode() != text
        if is_changed and stream.say_each is SayEach.WRITE:
            self.report_note('an acknowledgement is cut at 1,024 bytes', stream.name)
        elif is_changed:
            self.report('a line is cut at 1,024 bytes, or is no UTF-8', stream.name)
        self.add_operation(acknowledgement)
        self.on_acknowledged(acknowledgement)

    def end_streams(self) -> None:
        """Adds the last line of each stream that has no line feed: to be called after the last
        call. Sets the stream's is_held if files were changed after that line began."""
        for stream in self.streams.all_streams():
            if stream.pieces:
                self.add_output(stream, b'\n')
                stream.is_held = stream.gap_count > 0
