"""The tree of each state, and what a micro-operation does to it."""

from __future__ import annotations

from functools import lru_cache
from typing import Callable, Dict, Iterable, Iterator, List, NamedTuple, Optional, Tuple, TypeVar

from .data import Data
from .digests import Digests
from .micro import (
    Acknowledgement,
    ChangeSize,
    CreateEntry,
    DeleteEntry,
    LinkEntry,
    MicroOperation,
    MoveEntry,
    Rights,
    SetDirectoryRights,
    SetFileRights,
    WriteBlock,
)
from .names import DIRECTORY, ROOT, Entry, Inode
from .place_sets import places_of, set_of, sets_by_key
from .trace import Reading


class Item(NamedTuple):
    """What is at a path: its kind (`dir`, `file` or `symlink`), its rights and its bytes. Those of
    a symbolic link are its target; a directory has None."""

    kind: str
    rights: Rights
    data: Optional[Data]

    @property
    def content(self) -> Optional[bytes]:
        """All its bytes, zeros included; None for a directory."""
        return None if self.data is None else self.data.all_bytes()


DataOrDigest = TypeVar('DataOrDigest', Data, bytes)
# A tree in a form in which equal trees are equal, and others are not.
Digest = Tuple[Tuple[str, str, Rights, Optional[bytes]], ...]
# What is at each path of a state, and the rights of its directories by their numbers.
NodesAndRights = Tuple[Dict[str, Inode], Dict[int, Rights]]


class Trees:
    """Makes the trees of allowed sets; other sets may raise KeyError. What a file holds depends
    only on its own changes, and the names only on changes of entries and directories, so that many
    states share them.

    change_places has the set of each changed file's changes, by the file's number. entry_places is
    the set of the changes of entries or of a directory's rights, directory_moves that of the moves
    of directories, and say_places that of the acknowledged lines.
    """

    def __init__(self, reading: Reading) -> None:
        """Sorts the places by what they change. Trees are made when they are asked for."""
        self.reading = reading
        operations = list(enumerate(reading.operations))
        self.change_places = sets_by_key(
            (operation.file_number, place)
            for place, operation in operations
            if operation.file_number is not None
        )
        self.entry_places = set_of(
            place
            for place, operation in operations
            if operation.entries or operation.directory_number is not None
        )
        self.directory_moves = set_of(
            place for place, operation in operations if operation.is_directory_move
        )
        self.say_places = set_of(
            place for place, operation in operations if isinstance(operation, Acknowledgement)
        )
        digests = Digests(reading, self.change_places, self.compute_file)
        self._nodes = lru_cache(64)(self.compute_nodes)
        # By a file's number and the set of its changes: its rights, and its bytes or their digest.
        self._rights_and_data = lru_cache(64)(self.compute_file)
        self._rights_and_digest = lru_cache(None)(digests.rights_and_digest)

    def count_says(self, place_set: int) -> int:
        """How many acknowledged lines a set has."""
        return bin(place_set & self.say_places).count('1')

    def tree(self, place_set: int) -> Dict[str, Item]:
        """The tree of an allowed set: what is at each path, the root among them, in the order of
        the paths. Trees share the bytes of files, which must not be changed."""
        rows = self.walk_tree(place_set, self._rights_and_data)
        return {path: Item(kind, rights, data) for path, kind, rights, data in rows}

    def digest(self, place_set: int) -> Digest:
        """The tree of an allowed set, in a form that is equal for sets that leave equal trees, and
        for no others. The acknowledged lines aren't in it: see count_says(). The digests of files
        that are computed for it are kept in memory."""
        return tuple(self.walk_tree(place_set, self._rights_and_digest))

    def digest_and_says(self, place_set: int) -> Tuple[Digest, int]:
        """What an allowed set leaves: the digest of its tree, and how many acknowledged lines it
        has. Equal for two sets exactly if they leave the same."""
        return self.digest(place_set), self.count_says(place_set)

    def walk_tree(
        self, place_set: int, read_file: Callable[[int, int], Tuple[Rights, DataOrDigest]]
    ) -> Iterator[Tuple[str, str, Rights, Optional[DataOrDigest]]]:
        """What is at each path of an allowed set's tree, in the order of the paths: the path, the
        kind, the rights, and the bytes or their digest, None for a directory. `read_file` returns
        the last two for a file, from the file's number and the set of its changes."""
        nodes, directory_rights = self._nodes(place_set & self.entry_places)
        for path, node in nodes.items():
            if node.kind == DIRECTORY:
                yield path, DIRECTORY, directory_rights[node.number], None
            else:
                changes = place_set & self.change_places.get(node.number, 0)
                rights, data = read_file(node.number, changes)
                yield path, node.kind, rights, data

    def compute_nodes(self, place_set: int) -> NodesAndRights:
        """What is at each path after the changes of a set, all of entries and directories, in the
        order of the paths, and the rights of all directories, also of removed ones. KeyError as
        change_entries()."""
        entries, rights = dict(self.reading.start), dict(self.reading.start_rights)
        operations = [self.reading.operations[place] for place in places_of(place_set)]
        for operation in operations:
            change_entries(entries, operation)
            change_rights(rights, operation)
        if place_set & self.directory_moves:
            nodes = dict(reachable_paths(entries.items()))
        else:
            nodes = self.unmoved_nodes(entries, operations)
        return dict(sorted(nodes.items())), rights

    def unmoved_nodes(
        self, entries: Dict[Entry, Inode], operations: List[MicroOperation]
    ) -> Dict[str, Inode]:
        """What is at each path after micro-operations that leave these entries. None of them may
        move a directory: then each directory is at its unmoved path, and only the paths of changed
        entries are computed."""
        paths = {
            entry: self.reading.unmoved_path(entry)
            for operation in operations
            for entry in operation.entries
        }
        changed_paths = set(paths.values())
        nodes = {
            path: node
            for path, node in self.reading.start_paths.items()
            if path not in changed_paths
        }
        nodes.update((path, entries[entry]) for entry, path in paths.items() if entry in entries)
        return nodes

    def compute_file(self, file_number: int, place_set: int) -> Tuple[Rights, Data]:
        """The rights and bytes of a file after the changes of a set, all of this file; without
        hidden bytes."""
        rights = self.reading.initial_rights[file_number]
        data = self.reading.initial_data[file_number].copy()
        for place in places_of(place_set):
            operation = self.reading.operations[place]
            if isinstance(operation, SetFileRights):
                rights = operation.rights
            change_data(data, operation)
        return rights, data.without_hidden_bytes()


def change_data(data: Data, operation: MicroOperation) -> None:
    """Changes a file's bytes as a change of the file does. Bytes that are written past the size are
    hidden until a larger size shows them; a smaller size drops all bytes past it. A change of
    rights leaves them."""
    if isinstance(operation, ChangeSize):
        data.resize(operation.length)
    elif isinstance(operation, WriteBlock):
        data.write_block(operation.block, operation.offset, operation.data)


def change_entries(entries: Dict[Entry, Inode], operation: MicroOperation) -> None:
    """Changes `entries` as a micro-operation does; one that changes no entry leaves them. What is
    made, linked or moved to an entry replaces what is there. KeyError if an entry that is removed
    or moved isn't in the map."""
    if isinstance(operation, (CreateEntry, LinkEntry)):
        entries[operation.entries[0]] = operation.node
    elif isinstance(operation, DeleteEntry):
        del entries[operation.entries[0]]
    elif isinstance(operation, MoveEntry):
        entries[operation.entries[1]] = entries.pop(operation.entries[0])


def change_rights(rights: Dict[int, Rights], operation: MicroOperation) -> None:
    """Changes the rights of directories, by their numbers, if a micro-operation makes a directory
    or sets its rights; any other leaves them. So a removed directory keeps its rights here."""
    if isinstance(operation, CreateEntry) and operation.made_directory is not None:
        rights[operation.made_directory] = operation.rights
    elif isinstance(operation, SetDirectoryRights):
        rights[operation.directory_number] = operation.rights


def reachable_paths(entries: Iterable[Tuple[Entry, Inode]]) -> Iterator[Tuple[str, Inode]]:
    """The paths that lead from the root to what entries hold, each with what is there: the root
    first, and each directory before what is in it. Entries of a directory that no path leads to are
    left out."""
    listings = directory_listings(entries)
    yield '/', Inode(DIRECTORY, ROOT)
    waiting = [('', ROOT)]
    while waiting:
        directory_path, directory = waiting.pop()
        nodes = [(f'{directory_path}/{name}', node) for name, node in listings.get(directory, [])]
        yield from nodes
        waiting += [(path, node.number) for path, node in nodes if node.kind == DIRECTORY]


def directory_listings(
    entries: Iterable[Tuple[Entry, Inode]]
) -> Dict[int, List[Tuple[str, Inode]]]:
    """What each directory holds, by its number: the names of its entries, each with what is there.
    A directory without entries is left out."""
    listings: Dict[int, List[Tuple[str, Inode]]] = {}
    for (directory, name), node in entries:
        listings.setdefault(directory, []).append((name, node))
    return listings
