"""What files hold after some of their changes, as ids: equal contents have equal ids."""

from __future__ import annotations

from dataclasses import dataclass, field
from functools import lru_cache
from typing import Callable, Dict, Generic, Hashable, List, NamedTuple, Tuple, TypeVar

from .data import overwritten_block
from .micro import ChangeSize, Rights, SetFileRights, WriteBlock
from .trace import Reading

Value = TypeVar('Value')
# The id of a block of zeros. No content has it among its blocks.
ZERO_ID = 0
# The blocks of a content that aren't zero, ascending: the number of each, and its id.
BlockIds = Tuple[Tuple[int, int], ...]


@dataclass
class IdTable(Generic[Value]):
    """Different values, each with an id, which is its index in `values`; at first none. `key`
    returns what is equal exactly for equal values, and can be hashed. No value is dropped."""

    key: Callable[[Value], Hashable]
    values: List[Value] = field(default_factory=list, init=False)
    _ids: Dict[Hashable, int] = field(default_factory=dict, init=False)

    def id_of(self, value: Value) -> int:
        """The id of a value: a new one, unless an equal value has one. A value with a new id is
        kept, not copied, and must not be changed afterwards."""
        key = self.key(value)
        if key not in self._ids:
            self._ids[key] = len(self.values)
            self.values.append(value)
        return self._ids[key]


class Content(NamedTuple):
    """What a file holds: its rights, its size, and its blocks. Bytes past the size count too, since
    a later size may show them."""

    rights: Rights
    size: int
    blocks: BlockIds


class Contents:
    """The contents that the files of a trace can have, and the bytes of their blocks, which come
    without the zeros at a block's end. Equal contents have one id, also if they are of different
    files, and so have equal blocks. `contents` and `blocks` have those that were asked for so far.
    """

    def __init__(self, reading: Reading) -> None:
        """No content has an id yet. The block of zeros has the id ZERO_ID."""
        self.reading = reading
        self.contents: IdTable[Content] = IdTable(lambda content: content)
        self.blocks: IdTable[bytes] = IdTable(lambda block_bytes: block_bytes)
        self.blocks.id_of(b'')
        # These are computed once for equal arguments.
        self.content_id_after = lru_cache(None)(self.compute_content_id_after)
        self.shown_content_id = lru_cache(None)(self.compute_shown_content_id)

    def initial_content_id(self, file_number: int) -> int:
        """The id of the content with which a file or symbolic link, given by its number, is
        made."""
        data = self.reading.initial_data[file_number]
        blocks = sorted(data.blocks.items())
        block_ids = tuple((block, self.blocks.id_of(block_bytes)) for block, block_bytes in blocks)
        rights = self.reading.initial_rights[file_number]
        return self.contents.id_of(Content(rights, data.length, block_ids))

    def compute_content_id_after(self, content_id: int, place: int) -> int:
        """The id of what a content, given by its id, becomes by the micro-operation at `place`,
        which must be a change of a file: new rights, a new size, or a write to a block. A smaller
        size drops all bytes past it; a write doesn't change the size. AssertionError for any other
        micro-operation."""
        content, operation = self.contents.values[content_id], self.reading.operations[place]
        blocks = content.blocks
        if isinstance(operation, SetFileRights):
            content = content._replace(rights=operation.rights)
        elif isinstance(operation, ChangeSize):
            if operation.length < content.size:
                blocks = self.blocks_up_to(blocks, operation.length)
            content = content._replace(size=operation.length, blocks=blocks)
        else:
            assert isinstance(operation, WriteBlock)
            content = content._replace(blocks=self.blocks_after_write(blocks, operation))
        return self.contents.id_of(content)

    def blocks_up_to(self, blocks: BlockIds, end: int) -> BlockIds:
        """The blocks of a content without the bytes from the offset `end` on. A block of which only
        zeros are left is dropped."""
        cut_block, cut_offset = divmod(end, self.reading.block_size)
        whole_blocks = tuple((block, block_id) for block, block_id in blocks if block < cut_block)
        bytes_left = self.blocks.values[dict(blocks).get(cut_block, ZERO_ID)][:cut_offset]
        id_left = self.blocks.id_of(bytes_left.rstrip(b'\0'))
        return whole_blocks if id_left == ZERO_ID else (*whole_blocks, (cut_block, id_left))

    def blocks_after_write(self, blocks: BlockIds, write: WriteBlock) -> BlockIds:
        """The blocks of a content after a write to a block, which the content may lack before. If
        the block has only zeros afterwards, it is dropped."""
        ids_after = dict(blocks)
        bytes_before = self.blocks.values[ids_after.pop(write.block, ZERO_ID)]
        block_id = self.blocks.id_of(overwritten_block(bytes_before, write.offset, write.data))
        if block_id != ZERO_ID:
            ids_after[write.block] = block_id
        return tuple(sorted(ids_after.items()))

    def compute_shown_content_id(self, content_id: int) -> int:
        """The id that a content, given by its own id, has without the bytes past its size, which no
        reader sees."""
        content = self.contents.values[content_id]
        blocks = self.blocks_up_to(content.blocks, content.size)
        return self.contents.id_of(content._replace(blocks=blocks))
