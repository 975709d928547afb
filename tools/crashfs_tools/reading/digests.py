"""Digests of files after sets of changes: equal exactly if the bytes are, also of different
files."""

from __future__ import annotations

import hashlib
from functools import lru_cache
from typing import Callable, Dict, Tuple

from .data import Data, overwritten_block
from .micro import ChangeSize, Rights, SetFileRights, WriteBlock
from .place_sets import places_of, set_of, sets_by_key
from .trace import Reading

# The digests of a file's blocks, by their numbers.
BlockDigests = Dict[int, bytes]
# The digest of a block of zeros.
ZERO_DIGEST = b''


class Digests:
    """Digests of the files of a trace. A file's digest is made of its length and the digests of its
    blocks. In a file that never shrinks, a block's digest depends only on the writes to the block
    and on the file's size, so that many states share it: these digests are kept in memory.

    change_places has the set of each changed file's changes, by the file's number. compute_file
    returns the rights and bytes of a file after a part of such a set, without hidden bytes: it is
    called for files that may shrink, and for those without changes.
    """

    def __init__(
        self,
        reading: Reading,
        change_places: Dict[int, int],
        compute_file: Callable[[int, int], Tuple[Rights, Data]],
    ) -> None:
        """Finds the files that never shrink. Digests are computed only by rights_and_digest()."""
        self.reading = reading
        self.compute_file = compute_file
        self.all_writes = set_of(
            place
            for place, operation in enumerate(reading.operations)
            if isinstance(operation, WriteBlock)
        )
        # The writes to each block of the files that never shrink, by the file's number.
        self.block_writes = {
            file_number: self.writes_by_block(place_set)
            for file_number, place_set in change_places.items()
            if not self.may_shrink(file_number, place_set)
        }
        # These are computed once for equal arguments, initial_digests for the last 64 files.
        self.block_digest = lru_cache(None)(self.compute_block_digest)
        self.rights_and_size = lru_cache(None)(self.compute_rights_and_size)
        self.initial_digests = lru_cache(64)(self.compute_initial_digests)

    def rights_and_digest(self, file_number: int, place_set: int) -> Tuple[Rights, bytes]:
        """The rights and the digest of a file, given by its number, after the changes of a set, all
        of this file. Bytes past the file's size don't count."""
        if file_number not in self.block_writes:
            rights, data = self.compute_file(file_number, place_set)
            digests = {block: hash_block(data.blocks[block]) for block in data.blocks}
            return rights, hash_file(data.length, digests)
        rights, size = self.rights_and_size(file_number, place_set & ~self.all_writes)
        return rights, hash_file(size, self.block_digests(file_number, place_set, size))

    def block_digests(self, file_number: int, place_set: int, size: int) -> BlockDigests:
        """The digests of the blocks of a file that never shrinks, after the changes of a set, which
        leave this size. Blocks past the size, and some that are zeros, are left out."""
        block_writes, block_size = self.block_writes[file_number], self.reading.block_size
        initial_blocks = self.reading.initial_data[file_number].blocks
        # The digests of blocks that are written are computed below, from their first bytes on.
        has_unwritten_blocks = not initial_blocks.keys() <= block_writes.keys()
        digests = dict(self.initial_digests(file_number)) if has_unwritten_blocks else {}
        last_block, last_bytes = divmod(size, block_size)
        for block, writes in block_writes.items():
            if block < last_block:
                writes = self.writes_that_show(writes & place_set)
                digests[block] = self.block_digest(file_number, block, writes, block_size)
        if last_bytes:
            writes = block_writes.get(last_block, 0) & place_set
            digests[last_block] = self.block_digest(file_number, last_block, writes, last_bytes)
        return digests

    def writes_that_show(self, writes: int) -> int:
        """Those of a set of writes to one block that its bytes may depend on: only the last write
        if it fills the block, else all."""
        last = writes.bit_length() - 1
        operation = self.reading.operations[last] if writes else None
        if isinstance(operation, WriteBlock) and len(operation.data) == self.reading.block_size:
            return 1 << last
        return writes

    def compute_initial_digests(self, file_number: int) -> BlockDigests:
        """The digests of the blocks with which a file is made; those of zeros are left out."""
        blocks = self.reading.initial_data[file_number].blocks
        return {block: hash_block(block_bytes) for block, block_bytes in blocks.items()}

    def compute_block_digest(self, file_number: int, block: int, writes: int, size: int) -> bytes:
        """The digest of the first `size` bytes of a file's block, given by its number, after a set
        of writes, all to this block."""
        block_bytes = self.reading.initial_data[file_number].blocks.get(block, b'')
        for place in places_of(writes):
            operation = self.reading.operations[place]
            assert isinstance(operation, WriteBlock)
            block_bytes = overwritten_block(block_bytes, operation.offset, operation.data)
        return hash_block(block_bytes[:size].rstrip(b'\0'))

    def compute_rights_and_size(self, file_number: int, place_set: int) -> Tuple[Rights, int]:
        """The rights and the size of a file after a set of its changes; writes don't count."""
        rights = self.reading.initial_rights[file_number]
        size = self.reading.initial_data[file_number].length
        for place in places_of(place_set):
            operation = self.reading.operations[place]
            if isinstance(operation, SetFileRights):
                rights = operation.rights
            elif isinstance(operation, ChangeSize):
                size = operation.length
        return rights, size

    def may_shrink(self, file_number: int, place_set: int) -> bool:
        """Whether a file gets shorter at any time if all changes of a set, all of this file, are
        made in their order. If not, it doesn't with any subset of them either."""
        size = self.reading.initial_data[file_number].length
        for place in places_of(place_set):
            operation = self.reading.operations[place]
            if isinstance(operation, ChangeSize):
                if operation.length < size:
                    return True
                size = operation.length
        return False

    def writes_by_block(self, place_set: int) -> Dict[int, int]:
        """For each block of a file, by its number, the set of the writes to the block that a set of
        the file's changes has. A block without writes is left out."""
        operations = ((self.reading.operations[place], place) for place in places_of(place_set))
        return sets_by_key(
            (operation.block, place)
            for operation, place in operations
            if isinstance(operation, WriteBlock)
        )


def hash_block(block_bytes: bytes) -> bytes:
    """The digest of a block, given by its bytes without the zeros at its end; ZERO_DIGEST if there
    are none."""
    return hashlib.sha256(block_bytes).digest() if block_bytes else ZERO_DIGEST


def hash_file(length: int, block_digests: BlockDigests) -> bytes:
    """The digest of a file, from its length and the digests of its blocks, by their numbers. A
    block counts as zeros if it has no digest, or ZERO_DIGEST."""
    digest = hashlib.sha256(length.to_bytes(8, 'little'))
    for block in sorted(block_digests):
        if block_digests[block]:
            digest.update(block.to_bytes(8, 'little') + block_digests[block])
    return digest.digest()
