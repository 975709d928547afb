"""The shared mappings of a process: threads share them, a fork copies them, an exec drops them."""

from __future__ import annotations

from dataclasses import dataclass, field, replace
from typing import Iterator, List

from crashfs_tools.common.sparse import round_up_to_pages

from .live_tree import Node


@dataclass(frozen=True)
class Mapping:
    """A shared mapping of a file from an offset on, at an address of a process; it has whole
    pages."""

    address: int
    length: int
    node: Node
    offset: int

    @property
    def end(self) -> int:
        """The first address after it."""
        return self.address + self.length

    def part_between(self, begin: int, end: int) -> Mapping:
        """The part of the mapping from the address `begin` to before `end`, with the part's own
        offset in the file. Its length is 0 if the mapping has no address between `begin` and
        `end`."""
        part_begin, part_end = max(begin, self.address), min(end, self.end)
        length = max(0, part_end - part_begin)
        offset = self.offset + part_begin - self.address
        return replace(self, address=part_begin, length=length, offset=offset)


@dataclass
class Memory:
    """The shared mappings of one address space."""

    mappings: List[Mapping] = field(default_factory=list)

    def map(self, mapping: Mapping) -> None:
        """Adds a mapping; what was mapped at its addresses is unmapped."""
        self.unmap(mapping.address, mapping.length)
        self.mappings.append(mapping)

    def unmap(self, address: int, length: int) -> None:
        """Unmaps `length` bytes from an address on, rounded up to whole pages. Parts of mappings
        outside these pages stay. Nothing need be mapped there."""
        end = address + round_up_to_pages(length)
        parts = []
        for mapping in self.mappings:
            parts.append(mapping.part_between(mapping.address, address))
            parts.append(mapping.part_between(end, mapping.end))
        self.mappings = [part for part in parts if part.length > 0]

    def move(
        self, old_address: int, old_length: int, address: int, length: int, *, keep_old: bool
    ) -> None:
        """Moves what is mapped from old_address on to another address, with another length, as
        mremap does. What was mapped at the new addresses is unmapped. The old addresses stay mapped
        if keep_old is set, or if old_length is 0: then they are mapped a second time."""
        # The kernel has one mapping there: if it is several here, they are adjacent in the file.
        moved = next(self.parts_in(old_address, 1), None)
        # To unmap no bytes would divide a mapping in two.
        if not keep_old and old_length:
            self.unmap(old_address, old_length)
        self.unmap(address, length)
        if moved is not None:
            self.map(replace(moved, address=address, length=round_up_to_pages(length)))

    def parts_in(self, address: int, length: int) -> Iterator[Mapping]:
        """Yields the parts of mappings that are in a range of addresses, in the order of
        `mappings`. No part is empty."""
        for mapping in self.mappings:
            part = mapping.part_between(address, address + length)
            if part.length > 0:
                yield part

    def copy(self) -> Memory:
        """The address space of a forked process: the same mappings, in a list of its own."""
        return Memory(list(self.mappings))
