"""Trees of the second reading as entries, and by the digests that trees on disks have."""

from __future__ import annotations

from typing import Dict, Tuple

from crashfs_tools.common.entry import Entries, Entry
from crashfs_tools.common.sparse import SparseBytes
from crashfs_tools.disks.disk import digest_of
from crashfs_tools.reading.trees import Item, Trees

# Files of more bytes are kept without their zeros.
WHOLE_BYTES = 1 << 20

# A tree by its digest, and how many lines are acknowledged with it.
TreeAndCount = Tuple[str, int]


def tree_and_count(trees: Trees, kept_set: int) -> TreeAndCount:
    """The tree that an allowed set leaves, by its digest as disks have it, and how many lines are
    acknowledged then."""
    tree = entries_of(trees.tree(kept_set))
    return digest_of(tree), trees.count_says(kept_set)


def entries_of(tree: Dict[str, Item]) -> Entries:
    """A tree of the second reading as entries of the tools' own type, by the same paths: both have
    the root."""
    return {path: entry_of(item) for path, item in tree.items()}


def entry_of(item: Item) -> Entry:
    """A new entry for an item of the second reading: a directory, a symbolic link, or a file with
    its bytes. A file of more than WHOLE_BYTES is kept without its zeros."""
    (owner, group, mode), data = item.rights, item.data
    entry = Entry(owner, group, int(mode, 8), None)
    if data is not None:
        if item.kind == 'symlink':
            entry.link = data.all_bytes().decode('utf-8')
        elif data.length <= WHOLE_BYTES:
            entry.data = bytearray(data.all_bytes())
        else:
            blocks = ((number * data.block_size, block) for number, block in data.blocks.items())
            entry.data = SparseBytes(data.length, blocks)
    return entry
