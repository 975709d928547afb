"""The allowed sets that leave different states, without going through each allowed set.

Sets of places below k that have equal futures (see the module `every`) and leave the same files are
extended alike: they are one *class*, and only its first set is followed. The files of a class are
those that have a name, or can still get one; bytes past a file's size count as long as a later size
can show them.
"""

from __future__ import annotations

from functools import lru_cache, reduce
from itertools import chain
from typing import Dict, FrozenSet, Hashable, Iterator, List, NamedTuple, Optional, Set, Tuple

from .contents import Contents, IdTable
from .micro import Acknowledgement, ChangeSize, LinkEntry, MicroOperation, Rights
from .names import DIRECTORY, Entry, Inode, is_file
from .order import Order
from .place_sets import places_of, sets_by_key
from .trees import change_entries, change_rights, reachable_paths
from .trace import Reading

# Each changed file, by its number, with the id of its content.
FileContents = Tuple[Tuple[int, int], ...]
# What is at a path: its kind, and the id of its content or a directory's rights.
ShownItem = Tuple[object, ...]
# Each path at which a state differs from the start tree, with what is there, or None if nothing is.
TreeChanges = FrozenSet[Tuple[str, Optional[ShownItem]]]


class NameChanges(NamedTuple):
    """What a set changes of the start tree, the contents of files apart: what each changed entry
    holds then, or None if nothing, and the changed rights of directories, by their numbers."""

    nodes: Dict[Entry, Optional[Inode]]
    rights: Dict[int, Rights]

    def key(self) -> Hashable:
        """What is equal exactly for equal changes, and can be hashed."""
        return frozenset(self.nodes.items()), frozenset(self.rights.items())


NO_CHANGES = NameChanges({}, {})


class SetResult(NamedTuple):
    """What the micro-operations of a set leave: the id of its name changes, see SetClasses; the
    ids of the contents of changed files, ascending by file; and how many lines are acknowledged."""

    changes_id: int
    file_contents: FileContents
    says: int


class SetClasses:
    """The classes of the sets that an order of a trace allows, found by walks through these sets.
    Later walks use what earlier ones have computed, which is kept in memory.

    name_changes has an id for each NameChanges that was found. By a file's number,
    initial_content_ids has the id of the content with which the file is made, start_entries the
    entries that hold it in the start tree, resize_places the set of the places that change its
    size, and link_places that of the places that give it one more entry. A file without such
    entries or places isn't in the last three.
    """

    def __init__(self, reading: Reading, order: Order) -> None:
        """Computes the initial contents of all files. `order` must be one of this trace. What sets
        leave is only computed by walks."""
        self.reading = reading
        self.order = order
        self.contents = Contents(reading)
        self.initial_content_ids = {
            file_number: self.contents.initial_content_id(file_number)
            for file_number in reading.initial_rights
        }
        self.start_entries = entries_by_file(reading.start)
        self.resize_places = sets_by_key(
            (operation.file_number, place)
            for place, operation in enumerate(reading.operations)
            if isinstance(operation, ChangeSize)
        )
        self.link_places = sets_by_key(
            (operation.node.number, place)
            for place, operation in enumerate(reading.operations)
            if isinstance(operation, LinkEntry)
        )
        self.name_changes: IdTable[NameChanges] = IdTable(NameChanges.key)
        # These are computed once for equal arguments.
        self.changes_id_after = lru_cache(None)(self.compute_changes_id_after)
        self.entries_of = lru_cache(None)(self.compute_entries_of)

    def different_sets(self) -> Iterator[int]:
        """The first set of each different state, in the order of every_set(). States differ if
        their trees do, or their numbers of acknowledged lines. There may be far too many: the
        caller must stop when it has enough. What was found is kept in memory."""
        states: Set[Tuple[int, TreeChanges]] = set()
        for place_set, result in self.first_sets():
            state = result.says, self.tree_changes(result)
            if state not in states:
                states.add(state)
                yield place_set

    def first_sets(self) -> Iterator[Tuple[int, SetResult]]:
        """The first allowed set of each class, in the order of every_set(), with what the set
        leaves. Sets of different classes may still leave equal trees."""
        followed: Set[Tuple[int, SetResult]] = set()
        empty_result = SetResult(self.name_changes.id_of(NO_CHANGES), (), 0)
        waiting = [(0, self.order.all_places, empty_result)]
        while waiting:
            place_set, future, result = waiting.pop()
            result = self.shown_result(result, future)
            if (future, result) in followed:
                continue
            followed.add((future, result))
            if not future:
                yield place_set, result
                continue
            lowest_bit = future & -future
            unit = self.order.unit_at(lowest_bit)
            result_with_unit = reduce(self.after_operation, places_of(unit), result)
            waiting.append((place_set | unit, future & ~unit, result_with_unit))
            waiting.append((place_set, self.order.future_without(future, lowest_bit), result))

    def shown_result(self, result: SetResult, future: int) -> SetResult:
        """What a set leaves, without what no reader sees if the set is extended by places of
        `future`: files that have no name and can't get one, and bytes past a size that no place of
        `future` changes. Files that are as they were made are left out too."""
        shown_contents = []
        for file_number, content_id in result.file_contents:
            may_get_name = future & self.link_places.get(file_number, 0)
            if may_get_name or self.entries_of(result.changes_id, file_number):
                if not future & self.resize_places.get(file_number, 0):
                    content_id = self.contents.shown_content_id(content_id)
                if content_id != self.initial_content_ids[file_number]:
                    shown_contents.append((file_number, content_id))
        return result._replace(file_contents=tuple(shown_contents))

    def after_operation(self, result: SetResult, place: int) -> SetResult:
        """What a set leaves together with the micro-operation at `place`, which must come after all
        places of the set; `result` is what the set leaves by itself. The files of what is returned
        are sorted, so that equal results are equal keys. KeyError as
        compute_changes_id_after()."""
        operation = self.reading.operations[place]
        if operation.file_number is not None:
            content_ids = dict(result.file_contents)
            initial_id = self.initial_content_ids[operation.file_number]
            content_id = content_ids.get(operation.file_number, initial_id)
            content_ids[operation.file_number] = self.contents.content_id_after(content_id, place)
            return result._replace(file_contents=tuple(sorted(content_ids.items())))
        if operation.entries or operation.directory_number is not None:
            return result._replace(changes_id=self.changes_id_after(result.changes_id, place))
        assert isinstance(operation, Acknowledgement)
        return result._replace(says=result.says + 1)

    # Changes of names

    def compute_changes_id_after(self, changes_id: int, place: int) -> int:
        """The id of the name changes after the micro-operation at `place`, if those before it have
        the id changes_id. The micro-operation must change entries or a directory's rights. KeyError
        as update_nodes()."""
        operation = self.reading.operations[place]
        changes_before = self.name_changes.values[changes_id]
        changes = NameChanges(dict(changes_before.nodes), dict(changes_before.rights))
        self.update_nodes(changes, operation)
        self.update_rights(changes, operation)
        return self.name_changes.id_of(changes)

    def update_nodes(self, changes: NameChanges, operation: MicroOperation) -> None:
        """Updates `changes` by what a micro-operation does to entries. An entry that holds the same
        as at the start again is dropped. KeyError if an entry that the micro-operation removes or
        moves holds nothing, because the set lacks what it needs."""
        nodes = {entry: self.node_at_entry(changes, entry) for entry in operation.entries}
        held_nodes = {entry: node for entry, node in nodes.items() if node is not None}
        change_entries(held_nodes, operation)
        for entry in operation.entries:
            changes.nodes[entry] = held_nodes.get(entry)
            if changes.nodes[entry] == self.reading.start.get(entry):
                del changes.nodes[entry]

    def update_rights(self, changes: NameChanges, operation: MicroOperation) -> None:
        """Updates `changes` by what a micro-operation does to the rights of directories. A removed
        directory, and one whose rights are as at the start again, are dropped."""
        changed_rights: Dict[int, Rights] = {}
        change_rights(changed_rights, operation)
        for directory, rights in changed_rights.items():
            changes.rights[directory] = rights
            if rights == self.reading.start_rights.get(directory):
                del changes.rights[directory]
        if operation.removed_directory is not None:
            changes.rights.pop(operation.removed_directory, None)

    def node_at_entry(self, changes: NameChanges, entry: Entry) -> Optional[Inode]:
        """What an entry holds after name changes; None if it holds nothing. An entry that `changes`
        lacks is as at the start."""
        return changes.nodes[entry] if entry in changes.nodes else self.reading.start.get(entry)

    def compute_entries_of(self, changes_id: int, file_number: int) -> Tuple[Entry, ...]:
        """The entries that hold a file or symbolic link, given by its number, after the name
        changes with this id, in no particular order; none if it has no name then."""
        changed_nodes = self.name_changes.values[changes_id].nodes
        start_entries = self.start_entries.get(file_number, [])
        unchanged_entries = (entry for entry in start_entries if entry not in changed_nodes)
        changed_entries = (
            entry
            for entry, node in changed_nodes.items()
            if node is not None and is_file(node, file_number)
        )
        return (*unchanged_entries, *changed_entries)

    # The trees

    def tree_changes(self, result: SetResult) -> TreeChanges:
        """What is at each path at which the tree of a result's state differs from the start tree.
        The changes of two results are equal exactly if their trees are."""
        changes = self.name_changes.values[result.changes_id]
        content_ids = dict(result.file_contents)
        is_moved = self.has_moved_directory(changes)
        nodes = self.all_nodes(changes) if is_moved else self.changed_nodes(result)
        items = {}
        for path, node in nodes.items():
            item = self.shown_item(node, changes, content_ids)
            if item != self.shown_item(self.reading.start_paths.get(path), NO_CHANGES, {}):
                items[path] = item
        return frozenset(items.items())

    def has_moved_directory(self, changes: NameChanges) -> bool:
        """Whether name changes have a directory at an entry whose path isn't the directory's
        unmoved path, the one that it has while no directory is moved."""
        return any(
            self.reading.unmoved_path(entry) != self.reading.unmoved_paths[node.number]
            for entry, node in changes.nodes.items()
            if node is not None and node.kind == DIRECTORY
        )

    def changed_nodes(self, result: SetResult) -> Dict[str, Optional[Inode]]:
        """What is at each path of a changed entry, file or directory; None if nothing is. No
        directory may be moved: see has_moved_directory()."""
        changes = self.name_changes.values[result.changes_id]
        nodes: Dict[str, Optional[Inode]] = {
            self.reading.unmoved_paths[number] or '/': Inode(DIRECTORY, number)
            for number in changes.rights
        }
        entries_of_files = (
            self.entries_of(result.changes_id, file_number)
            for file_number, _ in result.file_contents
        )
        for entry in chain(changes.nodes, *entries_of_files):
            path = self.reading.unmoved_path(entry)
            # Entries of a directory that is gone and of one made again may have the same path.
            nodes[path] = self.node_at_entry(changes, entry) or nodes.get(path)
        return nodes

    def all_nodes(self, changes: NameChanges) -> Dict[str, Optional[Inode]]:
        """What is at each path after name changes, also of moved directories, and None at each path
        of the start tree at which nothing is left. Unlike changed_nodes() it has all unchanged
        paths."""
        nodes: Dict[Entry, Optional[Inode]] = {**self.reading.start, **changes.nodes}
        held_nodes = ((entry, node) for entry, node in nodes.items() if node is not None)
        return {**dict.fromkeys(self.reading.start_paths), **dict(reachable_paths(held_nodes))}

    def shown_item(
        self, node: Optional[Inode], changes: NameChanges, content_ids: Dict[int, int]
    ) -> Optional[ShownItem]:
        """What a reader sees of `node`: its kind, and the id of a file's content or a directory's
        rights; None if `node` is None. content_ids has the ids of the contents of changed files, by
        the files' numbers: other files are as they were made. A directory whose rights `changes`
        lacks has those of the start tree."""
        if node is None:
            return None
        if node.kind == DIRECTORY:
            start_rights = self.reading.start_rights.get(node.number)
            return node.kind, changes.rights.get(node.number, start_rights)
        content_id = content_ids.get(node.number, self.initial_content_ids[node.number])
        return node.kind, self.contents.shown_content_id(content_id)


def entries_by_file(entries: Dict[Entry, Inode]) -> Dict[int, List[Entry]]:
    """The entries that hold each file or symbolic link, by its number. A file that no entry holds
    is left out."""
    entries_of_files: Dict[int, List[Entry]] = {}
    for entry, node in entries.items():
        if node.kind != DIRECTORY:
            entries_of_files.setdefault(node.number, []).append(entry)
    return entries_of_files
