"""The bytes of a file, of which only the blocks that aren't zero are kept."""

from __future__ import annotations

from dataclasses import dataclass, field
from itertools import chain
from typing import Dict, Iterator, List, Tuple


@dataclass(eq=False)
class Data:
    """The bytes of a file: its length, and by their numbers the blocks that aren't zero, each
    without the zeros at its end. Bytes past the length are hidden, and a larger length shows them.
    `blocks` is kept, not copied."""

    block_size: int
    length: int = 0
    blocks: Dict[int, bytes] = field(default_factory=dict)

    @staticmethod
    def from_parts(block_size: int, length: int, parts: List[Tuple[int, bytes]]) -> Data:
        """The bytes of a file of this length: its parts, each after its offset, and zeros
        elsewhere. If parts overlap the last one counts; bytes past the length are hidden."""
        data = Data(block_size, length)
        pieces = (split_by_blocks(offset, part, block_size) for offset, part in parts)
        for block, offset, piece in chain.from_iterable(pieces):
            data.write_block(block, offset, piece)
        return data

    def copy(self) -> Data:
        """A copy: changes of one don't change the other."""
        return Data(self.block_size, self.length, dict(self.blocks))

    def write_block(self, block: int, offset: int, piece: bytes) -> None:
        """Writes bytes into one block, given by its number, at an offset in the block, in which
        they must also end. The length stays: bytes past it are hidden."""
        block_bytes = overwritten_block(self.blocks.get(block, b''), offset, piece)
        if block_bytes:
            self.blocks[block] = block_bytes
        else:
            self.blocks.pop(block, None)

    def resize(self, length: int) -> None:
        """Sets the length. If it gets smaller, every byte past it is dropped, also hidden ones: a
        larger length shows zeros there later."""
        if length < self.length:
            self.blocks = self.blocks_up_to(length)
        self.length = length

    def blocks_up_to(self, end: int) -> Dict[int, bytes]:
        """The blocks, as `blocks` has them, without the bytes from the offset `end` on: these count
        as zeros."""
        cut_block, cut_offset = divmod(end, self.block_size)
        blocks = {block: self.blocks[block] for block in self.blocks if block < cut_block}
        bytes_left = self.blocks.get(cut_block, b'')[:cut_offset].rstrip(b'\0')
        return {**blocks, cut_block: bytes_left} if bytes_left else blocks

    def without_hidden_bytes(self) -> Data:
        """A copy without the hidden bytes."""
        return Data(self.block_size, self.length, self.blocks_up_to(self.length))

    def __eq__(self, other: object) -> bool:
        """Whether a reader of the two files sees the same: equal lengths, and equal bytes up to the
        length. Both must have blocks of one size."""
        if not isinstance(other, Data):
            return NotImplemented
        own_blocks, other_blocks = (data.blocks_up_to(data.length) for data in (self, other))
        return self.length == other.length and own_blocks == other_blocks

    __hash__ = None  # type: ignore[assignment]  # it changes

    def shown_blocks(self) -> Iterator[bytes]:
        """The bytes up to the length, block by block, zeros included; the last block may be
        shorter. Nothing if the length is 0."""
        for block in range(-(-self.length // self.block_size)):
            size = min(self.block_size, self.length - block * self.block_size)
            yield self.blocks.get(block, b'')[:size].ljust(size, b'\0')

    def all_bytes(self) -> bytes:
        """The bytes up to the length, zeros included."""
        return b''.join(self.shown_blocks())

    def read(self, begin: int, end: int) -> bytes:
        """The bytes from offset `begin` to before `end`. `end` must not be past the length: for
        offsets there, hidden bytes or zeros are returned."""
        first_block = begin // self.block_size
        blocks = (
            self.blocks.get(block, b'').ljust(self.block_size, b'\0')
            for block in range(first_block, -(-end // self.block_size))
        )
        offset = begin - first_block * self.block_size
        return b''.join(blocks)[offset : offset + end - begin]


def overwritten_block(block_bytes: bytes, offset: int, piece: bytes) -> bytes:
    """The bytes of a block after a piece was written into it at an offset. `block_bytes`, and what
    is returned, are without the zeros at the block's end."""
    changed = bytearray(block_bytes.ljust(offset, b'\0'))
    changed[offset : offset + len(piece)] = piece
    return bytes(changed).rstrip(b'\0')


def split_by_blocks(
    file_offset: int, data: bytes, block_size: int
) -> Iterator[Tuple[int, int, bytes]]:
    """Divides bytes at an offset of a file into pieces, each in one of the file's blocks: the
    block's number, the offset in the block, and the bytes. Nothing if there are no bytes."""
    end = file_offset + len(data)
    begin = file_offset
    while begin < end:
        block = begin // block_size
        piece_end = min(end, (block + 1) * block_size)
        yield block, begin - block * block_size, data[begin - file_offset : piece_end - file_offset]
        begin = piece_end
