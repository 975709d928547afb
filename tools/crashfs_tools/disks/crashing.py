"""Makes a session again on a file system up to each moment, and takes the disk there.

The copy of a device has what the kernel had sent to it: the power fails there. Its file system is
mounted again, so that its log is replayed.
"""

from __future__ import annotations

import os
from pathlib import Path
from typing import Iterator, Sequence, Tuple

from crashfs_tools.common.entry import Entries
from crashfs_tools.common.trace import Trace

from . import images
from .disk import Crash, read_tree
from .filesystems import FileSystem
from .flushes import (
    Flush,
    FlushKind,
    Unsynced,
    flush_earlier_file,
    make_flush,
    possible_flushes,
)
from .moments import Moment, crash_moments
from .owners import Owners
from .replay import Replay, lay_out_start

# The session's directory on the disk, and a file that isn't the session's.
DIRECTORY, OTHER = 'd', 'other'


class CrashMaker:
    """Crashes a session on one file system at its `moments`, in their order. `folder` is for its
    images and mount points. Methods that mount an image may be called only in a process with mounts
    of its own: see use_own_mounts(). They raise Refused if an image can't be made, mounted or
    repaired, and OSError if anything else fails, as an operation of the session."""

    def __init__(
        self, filesystem: FileSystem, trace: Trace, folder: str, line_numbers: Sequence[int] = ()
    ) -> None:
        """line_numbers are those of the operations' lines in the trace. By default they follow
        those of the start lines, as in a trace without empty lines."""
        first_line = len(trace.start) + 2
        line_numbers = line_numbers or range(first_line, first_line + len(trace.operations))
        self.moments = list(crash_moments(trace.operations, line_numbers))
        self.filesystem = filesystem
        self.trace = trace
        self.owners = Owners(trace)
        self.folder = folder

    def process_path(self, name: str) -> str:
        """The path, in the folder, of this process's own image or mount point with a name."""
        return os.path.join(self.folder, f'{self.filesystem.name}.{name}.{os.getpid()}')

    def start_image(self) -> str:
        """The path of this process's image of the start tree, which the first call makes. Processes
        can't share an image: XFS and btrfs don't mount two copies of a file system at once. After
        an error no image is left, and the next call makes it again."""
        image = self.process_path('start')
        if not os.path.exists(image):
            try:
                self.make_start_image(image)
            except BaseException:
                Path(image).unlink(missing_ok=True)
                raise
        return image

    def make_start_image(self, image: str) -> None:
        """Makes a new image of the start tree. FileExistsError if the image is there. Any other
        error may leave an image without the whole tree."""
        images.make_image(self.filesystem, image)
        with images.mounted_image(self.filesystem, image, self.process_path('point')) as top:
            lay_out_start(self.trace, os.path.join(top, DIRECTORY), self.owners)
        images.dig_holes(image)

    def crashed_trees(
        self, moment: Moment, flush_kinds: Sequence[FlushKind]
    ) -> Iterator[Tuple[Entries, Crash]]:
        """Yields the tree that a crash at a moment leaves, and the crash, for each possible flush
        of these kinds; some trees may be equal. The session is made first without a flush, to find
        the unsynced changes: the tree of this run comes first if NOTHING is among the kinds. For
        each other tree the session is made again, once the tree is asked for."""
        copy = self.process_path('copy')
        unsynced = self.crash(moment, Flush(FlushKind.NOTHING), copy)
        if FlushKind.NOTHING in flush_kinds:
            yield self.tree_on_copy(copy), Crash(moment, FlushKind.NOTHING)
        flushes = (
            flush
            for kind in flush_kinds
            if kind is not FlushKind.NOTHING
            for flush in possible_flushes(kind, unsynced, moment.operation_count)
        )
        for flush in flushes:
            self.crash(moment, flush, copy)
            yield self.tree_on_copy(copy), Crash(moment, flush.kind)

    def crash(self, moment: Moment, flush: Flush, copy: str) -> Unsynced:
        """Makes the session up to a moment, makes a flush, and copies the disk while it is mounted
        to the path `copy`, where an image may be already: this is what the crash leaves. Returns
        the changes of each file that no sync covered before the flush."""
        disk = self.process_path('disk')
        images.copy_image(self.start_image(), disk)
        with images.mounted_image(self.filesystem, disk, self.process_path('point')) as top:
            with Replay(os.path.join(top, DIRECTORY), self.owners) as replay:
                for operation in self.trace.operations[: moment.operation_count]:
                    replay.make_operation(operation)
                    flush_earlier_file(replay, flush)
                unsynced = list(replay.unsynced.values())
                make_flush(replay, flush, os.path.join(top, OTHER))
                images.copy_image(disk, copy)
        return unsynced

    def tree_on_copy(self, copy: str) -> Entries:
        """The session's directory, as `/`, on a copy that a crash left. The copy is changed: it is
        repaired, and its mount replays the file system's log."""
        images.repair_image(self.filesystem, copy)
        with images.mounted_image(self.filesystem, copy, self.process_path('point')) as top:
            return read_tree(os.path.join(top, DIRECTORY), self.owners)

    def remove_images(self) -> None:
        """Removes the images that this process has made, if there are any. Mount points stay."""
        for name in ('start', 'disk', 'copy'):
            Path(self.process_path(name)).unlink(missing_ok=True)
