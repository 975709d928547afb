"""What `crashfs tar --changes` writes: for each state what differs from the start tree."""

from __future__ import annotations

from typing import Iterator, List, NamedTuple, Optional

from crashfs_tools.common.archive import ArchiveFault, Member, parse_state_number
from crashfs_tools.common.entry import Entries

ENDING = '.missing'


class Changes(NamedTuple):
    """What differs from the start tree in the state of a number: the paths of the start tree that
    the state lacks, and the entries that the start tree doesn't have, or has otherwise. Paths are
    relative, the root's is empty."""

    number: int
    missing: List[str]
    entries: Entries

    def apply_to(self, start: Entries) -> Entries:
        """The state's tree, as a new map which shares the entries: the start tree with these
        changes. KeyError if the start tree lacks one of the missing paths."""
        tree = dict(start)
        for path in self.missing:
            del tree[path]
        return {**tree, **self.entries}


def read_changes(members: Iterator[Member]) -> Iterator[Changes]:
    """Yields the changes of each state, in the order of the archive, once the next state begins or
    the archive ends. A state begins with its list of missing paths: a file NUMBER.missing with a
    NUL after each path. The state's entries follow. ArchiveFault if an entry comes before its
    state's list, if a NUMBER is no number, or as `members` raises it."""
    changes: Optional[Changes] = None
    for member_path, entry in members:
        first_name, _, path = member_path.partition('/')
        if not path and first_name.endswith(ENDING):
            if changes is not None:
                yield changes
            paths = bytes(entry.data or b'').decode('utf-8', 'surrogateescape').split('\0')
            number = parse_state_number(first_name[: -len(ENDING)])
            changes = Changes(number, [name.rstrip('/') for name in paths[:-1]], {})
        elif changes is None or parse_state_number(first_name) != changes.number:
            raise ArchiveFault(f'{member_path} comes before a list of what is missing')
        else:
            changes.entries[path] = entry
    if changes is not None:
        yield changes
