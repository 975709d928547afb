"""What `tar` writes."""

from __future__ import annotations

import tarfile
from copy import copy
from io import BytesIO
from typing import BinaryIO, Dict, List, Optional

from .data import Data
from .names import DIRECTORY, FILE, SYMLINK
from .plan import StatePlan
from .sparse import Extent, data_extents, extent_map, has_many_zeros
from .trees import Item

TAR_TYPES = {DIRECTORY: tarfile.DIRTYPE, FILE: tarfile.REGTYPE, SYMLINK: tarfile.SYMTYPE}


class ArchiveWriter:
    """Writes an archive of states of a plan to a stream, which stays open. The end of a `with` ends
    the archive. If is_sparse is set, large files with many zeros are written as extents. Each
    method that writes raises an OSError of the stream, and IndexError if it gets a number that no
    state of the plan has."""

    def __init__(self, plan: StatePlan, stream: BinaryIO, *, is_sparse: bool = False) -> None:
        """Writes nothing yet."""
        self.plan = plan
        self.is_sparse = is_sparse
        self.archive = tarfile.open(fileobj=stream, mode='w|', format=tarfile.PAX_FORMAT)

    def __enter__(self) -> ArchiveWriter:
        return self

    def __exit__(self, *_: object) -> None:
        """Ends the archive by two blocks of zeros, and writes what tarfile has buffered. This is
        also done after an error in the `with`: the archive may then look whole, though it lacks
        states. The padding that tarfile itself would add, up to a tape's record, is left out."""
        stream = self.archive.fileobj
        assert stream is not None
        stream.write(bytes(2 * tarfile.BLOCKSIZE))
        stream.close()

    def tree_of_state(self, number: int) -> Dict[str, Item]:
        """What is at each path of the state with this number, as Trees.tree() returns it.
        IndexError if the plan has no such state."""
        return self.plan.trees.tree(self.plan.states[number].place_set)

    def write_state(self, number: int) -> None:
        """Writes the tree of one state. The root's name is `./`; the other names are the paths
        without their first slash."""
        self.write_tree(number, '')

    def write_states(self, numbers: List[int]) -> None:
        """Writes the trees of states, in this order, each below a directory that has the state's
        number as its name."""
        for number in numbers:
            self.write_tree(number, f'{number}/')

    def write_changes(self, numbers: List[int]) -> None:
        """Writes how each of some states N differs from state 0: first a file `N.missing` with the
        names of the paths that only state 0 has, each ended by a NUL; then, below `N/`, the entries
        that are new or differ. A state that doesn't differ has only its empty `N.missing`."""
        first_tree = self.tree_of_state(0)
        for number in numbers:
            tree = self.tree_of_state(number)
            self.write_missing(number, first_tree, tree)
            self.write_differing(number, first_tree, tree)

    def write_missing(
        self, number: int, first_tree: Dict[str, Item], tree: Dict[str, Item]
    ) -> None:
        """Writes the file `N.missing` of write_changes() for state N, whose tree is `tree`;
        first_tree is that of state 0."""
        paths = [path for path in paths_in_order(first_tree) if path not in tree]
        names = ''.join(missing_name(path, first_tree[path]) + '\0' for path in paths).encode()
        member = tarfile.TarInfo(f'{number}.missing')
        member.size = len(names)
        self.archive.addfile(member, BytesIO(names))

    def write_differing(
        self, number: int, first_tree: Dict[str, Item], tree: Dict[str, Item]
    ) -> None:
        """Writes, below `N/`, what is at each path of state N's tree at which first_tree, that of
        state 0, has nothing or something else. Kinds, rights and bytes are compared."""
        for path in paths_in_order(tree):
            if first_tree.get(path) != tree[path]:
                self.write_item(f'{number}{path}', tree[path])

    def write_tree(self, number: int, prefix: str) -> None:
        """Writes the tree of a state. A name is the prefix and the path without its first slash, or
        `./` if both are empty."""
        tree = self.tree_of_state(number)
        for path in paths_in_order(tree):
            self.write_item(prefix + path[1:] or './', tree[path])

    def write_item(self, name: str, item: Item) -> None:
        """Writes one file, directory or symbolic link, with its owner, group and mode; its time is
        0. If is_sparse is set, a large file with many zeros is written as extents. Slashes at the
        end of `name` are dropped: tarfile adds one for a directory."""
        member = tarfile.TarInfo(name.rstrip('/'))
        member.type = TAR_TYPES[item.kind]
        (member.uname, member.gname, mode), data = item.rights, item.data
        member.mode = int(mode, 8)
        if data is None:
            self.archive.addfile(member)
        elif item.kind == SYMLINK:
            member.linkname = data.all_bytes().decode('utf-8')
            self.archive.addfile(member)
        elif self.is_sparse and has_many_zeros(data):
            self.write_sparse(member, data)
        else:
            member.size = data.length
            self.archive.addfile(member, ExtentReader(data, [(0, data.length)]))

    def write_sparse(self, member: tarfile.TarInfo, data: Data) -> None:
        """Writes a file as extents, in GNU tar's format 1.0 for sparse files: a map of the extents,
        then their bytes. `member` has the file's own name; its size isn't used."""
        extents = data_extents(data)
        map_bytes = extent_map(extents, data.length)
        directory, slash, name = member.name.rpartition('/')
        sparse_member = copy(member)
        sparse_member.name = f'{directory}{slash}GNUSparseFile.0/{name}'
        sparse_member.size = len(map_bytes) + sum(end - begin for begin, end in extents)
        sparse_member.pax_headers = {
            # It comes first: to Python's tarfile the last of two names counts.
            'path': sparse_member.name,
            'GNU.sparse.major': '1',
            'GNU.sparse.minor': '0',
            'GNU.sparse.name': member.name,
            'GNU.sparse.realsize': str(data.length),
        }
        self.archive.addfile(sparse_member, ExtentReader(data, extents, map_bytes))


class ExtentReader(BytesIO):
    """A stream for tarfile to read: first `head`, then the bytes of a file in each extent. The
    extents must be within the file's length. Only read() has the extents' bytes."""

    def __init__(self, data: Data, extents: List[Extent], head: bytes = b'') -> None:
        super().__init__(head)
        self.data = data
        self.extents_left = list(extents)

    def read(self, size: Optional[int] = -1, /) -> bytes:
        """The next `size` bytes; fewer only at the end. Without a size, or with a negative one,
        only what is left of the head: tarfile always gives a size."""
        chunk = super().read(size)
        while self.extents_left and len(chunk) < (size or 0):
            begin, end = self.extents_left.pop(0)
            chunk_end = min(end, begin + (size or 0) - len(chunk))
            chunk += self.data.read(begin, chunk_end)
            if chunk_end < end:
                self.extents_left.insert(0, (chunk_end, end))
        return chunk


def paths_in_order(tree: Dict[str, Item]) -> List[str]:
    """The paths of a tree in the order of archives: they are compared name by name, so that each
    comes after its directory."""
    return sorted(tree, key=lambda path: path.split('/'))


def missing_name(path: str, item: Item) -> str:
    """A path as `N.missing` has it: without its first slash, and with a slash after a directory."""
    return path[1:] + ('/' if item.data is None else '')
