"""Random sessions by seed: short traces of version 4, with operations of all kinds."""

from __future__ import annotations

import random
from typing import List, Optional

from crashfs_tools.common.entry import DIRECTORY_KIND, FILE_KIND, SYMLINK_KIND
from crashfs_tools.common.sparse import SparseBytes
from crashfs_tools.common.trace import (
    Creat,
    Fdatasync,
    Fsync,
    FsyncRange,
    Header,
    Link,
    Mkdir,
    Operation,
    Rename,
    Rmdir,
    Say,
    Start,
    StartLine,
    StartSymlink,
    Symlink,
    Sync,
    Trace,
    Truncate,
    Unlink,
    Write,
)
from crashfs_tools.common.trace_read import tree_without_start

# The owner and the group of all files and directories.
OWNER = 'root', 'root'
FILE_MODE, DIRECTORY_MODE = 0o644, 0o755
NAMES, DIRECTORIES = 'abc', 'def'
# The kinds of operations, by the names of the methods that draw one, with how often each is drawn
# in proportion to the others.
KINDS = {
    'creat': 3,
    'write': 6,
    'append': 4,
    'truncate': 3,
    'rename': 6,
    'rename_directory': 4,
    'link': 3,
    'symlink': 3,
    'unlink': 3,
    'mkdir': 2,
    'rmdir': 2,
    'fsync': 6,
    'fdatasync': 3,
    'fsync_range': 1,
    'fsync_directory': 4,
    'sync': 1,
}
SYNCS = (Fsync, Fdatasync, FsyncRange, Sync)


def draw_session(seed: int, operation_count: int) -> Trace:
    """The session of a seed, with operation_count operations, 0 or more. After each sync, and at
    the end, a line is acknowledged; these lines aren't counted. A seed always gives the same
    session: results and pages name sessions by their seeds."""
    session = DrawnSession(seed)
    session.draw_operations(operation_count)
    session.trace.operations.append(Say('end'))
    return session.trace


class DrawnSession:
    """A session that is drawn: its start tree at first, then operation by operation. `tree` is what
    the operations so far leave. Each method that draws uses up random numbers, so the order of
    calls decides which session a seed gives."""

    def __init__(self, seed: int) -> None:
        """Draws the start tree."""
        self.random = random.Random(seed)
        self.trace = Trace(Header(*OWNER, DIRECTORY_MODE), self.draw_start(), version=4)
        self.tree = tree_without_start(self.trace)
        for line in self.trace.start:
            self.tree.add_start(line)

    def draw_start(self) -> List[StartLine]:
        """Draws the lines of the start tree: /d and /e, perhaps /d/f, two files, and perhaps the
        symbolic link /e/c. `tree` isn't needed yet."""
        directories = ['/d', '/e', *(['/d/f'] if self.draw_boolean(true_once_in=3) else [])]
        start: List[StartLine] = []
        start += [Start(path, *OWNER, DIRECTORY_MODE, None) for path in directories]
        for path in self.random.sample(['/a', '/b', '/d/a', '/d/b', '/e/a'], 2):
            data = self.random.choice([b'old', b'x' * 5000])
            start.append(Start(path, *OWNER, FILE_MODE, data))
        if self.draw_boolean(true_once_in=3):
            start.append(StartSymlink('/e/c', *OWNER, 'a'))
        return start

    def draw_boolean(self, *, true_once_in: int) -> bool:
        """Draws true or false: true with a chance of one in true_once_in."""
        return self.random.randrange(true_once_in) == 0

    def draw_operations(self, count: int) -> None:
        """Adds `count` useful operations, 0 or more, to the trace, and after each sync an
        acknowledged line."""
        for _ in range(count):
            operation = self.draw_useful_operation()
            self.tree.apply(operation)
            self.trace.operations.append(operation)
            if isinstance(operation, SYNCS):
                self.trace.operations.append(Say(f'{len(self.trace.operations)}'))

    def draw_useful_operation(self) -> Operation:
        """Draws operations, each kind as often as KINDS says, until one is useful, and returns this
        one. Nothing is added to the trace or the tree."""
        operation: Optional[Operation] = None
        while operation is None or not self.is_useful(operation):
            kind = self.random.choices(list(KINDS), list(KINDS.values()))[0]
            operation = getattr(self, f'draw_{kind}')()
        return operation

    def is_useful(self, operation: Operation) -> bool:
        """Whether the tree allows an operation, and it isn't a rename that changes nothing: one
        between two names of a file, or of anything to its own path."""
        if self.tree.fault(operation):
            return False
        if not isinstance(operation, Rename):
            return True
        files = self.tree.files
        return files[operation.source] != files.get(operation.target)

    # Paths and sizes of the tree

    def paths_of(self, kind: str) -> List[str]:
        """The paths of all entries of a kind, as Entry.kind has it. The root isn't among them."""
        entries = self.tree.entries
        return [path for path, entry in entries.items() if path != '/' and entry.kind == kind]

    def draw_path(self, *kinds: str) -> Optional[str]:
        """Draws the path of an entry of these kinds, as Entry.kind has them; None if there is no
        such entry."""
        paths = [path for kind in kinds for path in self.paths_of(kind)]
        return self.random.choice(paths) if paths else None

    def draw_new_path(self, names: str) -> str:
        """Draws a path for a new entry: one of the letters of `names`, in the root or another
        directory. Something may be at the path already."""
        directory = self.random.choice(['', *self.paths_of(DIRECTORY_KIND)])
        return f'{directory}/{self.random.choice(names)}'

    def file_size(self, path: str) -> int:
        """How many bytes the file at a path has. A file must be there; no file is sparse here."""
        data = self.tree.entries[path].data
        assert data is not None and not isinstance(data, SparseBytes)
        return len(data)

    def draw_bytes(self) -> bytes:
        """Draws 2, 3, 4096 or 5000 equal bytes to write."""
        letter = self.random.choice(b'ABCDEFG')
        return bytes([letter]) * self.random.choice([2, 3, 4096, 5000])

    # A method for each kind, which draws an operation; None if the tree has nothing for it

    def draw_creat(self) -> Operation:
        """Draws a new, empty file."""
        return Creat(self.draw_new_path(NAMES), *OWNER, FILE_MODE)

    def draw_mkdir(self) -> Operation:
        """Draws a new directory."""
        return Mkdir(self.draw_new_path(DIRECTORIES), *OWNER, DIRECTORY_MODE)

    def draw_symlink(self) -> Operation:
        """Draws a new symbolic link; there may be nothing at its target."""
        return Symlink(
            self.draw_new_path(NAMES), *OWNER, self.random.choice(['a', '../b', 'd/none'])
        )

    def draw_write(self) -> Optional[Operation]:
        """Draws a write to a file at 0, 2 or 4096, which may be past its end; None if there is no
        file."""
        path = self.draw_path(FILE_KIND)
        if path is None:
            return None
        offset = self.random.choice([0, 0, 2, 4096])
        return Write(path, offset, self.draw_bytes())

    def draw_append(self) -> Optional[Operation]:
        """Draws a write at the end of a file; None if there is no file."""
        path = self.draw_path(FILE_KIND)
        return Write(path, self.file_size(path), self.draw_bytes()) if path else None

    def draw_truncate(self) -> Optional[Operation]:
        """Draws a truncate of a file to 0, 1, 2, 4096 or 6000 bytes, whatever length it has; None
        if there is no file."""
        path = self.draw_path(FILE_KIND)
        length = self.random.choice([0, 1, 2, 4096, 6000])
        return Truncate(path, length) if path else None

    def draw_rename(self) -> Optional[Operation]:
        """Draws a rename of a file or symbolic link; None if there is neither."""
        path = self.draw_path(FILE_KIND, SYMLINK_KIND)
        return Rename(path, self.draw_new_path(NAMES)) if path else None

    def draw_rename_directory(self) -> Optional[Operation]:
        """Draws a rename of a directory; None if there is none but the root."""
        path = self.draw_path(DIRECTORY_KIND)
        return Rename(path, self.draw_new_path(DIRECTORIES)) if path else None

    def draw_link(self) -> Optional[Operation]:
        """Draws one more name for a file; None if there is no file."""
        path = self.draw_path(FILE_KIND)
        return Link(path, self.draw_new_path(NAMES)) if path else None

    def draw_unlink(self) -> Optional[Operation]:
        """Draws the removal of a file or symbolic link; None if there is neither."""
        path = self.draw_path(FILE_KIND, SYMLINK_KIND)
        return Unlink(path) if path else None

    def draw_rmdir(self) -> Optional[Operation]:
        """Draws the removal of a directory, which may have entries; None if there is none but the
        root."""
        path = self.draw_path(DIRECTORY_KIND)
        return Rmdir(path) if path else None

    def draw_fsync(self) -> Optional[Operation]:
        """Draws a sync of a file; None if there is no file."""
        path = self.draw_path(FILE_KIND)
        return Fsync(path) if path else None

    def draw_fdatasync(self) -> Optional[Operation]:
        """Draws a sync of a file's data; None if there is no file."""
        path = self.draw_path(FILE_KIND)
        return Fdatasync(path) if path else None

    def draw_fsync_range(self) -> Optional[Operation]:
        """Draws a sync of the first or the second page of a file, which may be past its end; None
        if there is no file."""
        path = self.draw_path(FILE_KIND)
        return FsyncRange(path, 4096 * self.random.randrange(2), 4096) if path else None

    def draw_fsync_directory(self) -> Operation:
        """Draws a sync of a directory, which may be the root."""
        return Fsync(self.random.choice(['/', *self.paths_of(DIRECTORY_KIND)]))

    def draw_sync(self) -> Operation:
        """Returns a sync of everything: nothing needs to be drawn."""
        return Sync()
