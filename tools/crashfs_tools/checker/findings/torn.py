"""Which part of a torn line a crash kept."""

from __future__ import annotations

from typing import Iterator, List, NamedTuple, Tuple

from crashfs_tools.checker.states.plan import PlannedMicroOperation, Plan
from crashfs_tools.common.printable import count_text

# So many separate parts are named.
SHOWN = 3


class Piece(NamedTuple):
    """Bytes of a write, and whether they were kept. They begin at `begin` and end before `end`,
    counted from the first byte of the write."""

    begin: int
    end: int
    is_kept: bool


def kept_part_text(plan: Plan, kept_set: int, line_number: int) -> str:
    """What a set has of a line of the trace, and what it lacks of that line, in words. The set must
    have a part of the line, and lack a part. A line that writes blocks before it changes the length
    is a truncate: the blocks are zeros after its new end. One that writes none is a rename into
    another directory, whose second half is lost."""
    places = [
        place for place, operation in enumerate(plan.operations) if operation.line == line_number
    ]
    steps = [(plan.operations[place], bool(kept_set >> place & 1)) for place in places]
    pieces = pieces_of(steps)
    if not pieces:
        return 'both names'
    growth = [is_kept for operation, is_kept in steps if operation.kind == 'change_file_size']
    if growth and steps[0][0].kind == 'write_block':
        zeros = 'the zeros after its new end'
        return f'its length, not {zeros}' if growth[0] else f'{zeros}, not its length'
    kept = ' and '.join(kept_of_write(pieces, growth))
    return f'{kept}, not {" or ".join(lost_of_write(pieces, growth))}'


def kept_of_write(pieces: List[Piece], growth: List[bool]) -> Iterator[str]:
    """What was kept of a write, in words: its length, its bytes, or both. `growth` has whether each
    step of the file's growth was kept, in order; it is empty if the file didn't grow. The whole
    length isn't named next to bytes."""
    kept_pieces = [piece for piece in pieces if piece.is_kept]
    if growth and growth[0] and not (growth[-1] and kept_pieces):
        yield 'its length' if growth[-1] else 'a part of its length'
    if kept_pieces:
        part = f'bytes {byte_ranges_text(kept_pieces)} of its {pieces[-1].end:,}'
        yield part if len(kept_pieces) < len(pieces) else 'its bytes'


def lost_of_write(pieces: List[Piece], growth: List[bool]) -> Iterator[str]:
    """What was lost of a write, in words: its bytes, its length, or both. `growth` is as in
    kept_of_write(): if all its steps were kept, lost bytes are zeros."""
    lost_pieces = [piece for piece in pieces if not piece.is_kept]
    zeros = ' (zeros)' if growth and growth[-1] else ''
    if lost_pieces:
        part = f'bytes {byte_ranges_text(lost_pieces)}'
        yield (part if len(lost_pieces) < len(pieces) else 'its bytes') + zeros
    if growth and not growth[-1]:
        yield 'the rest of its length' if growth[0] else 'its length'


def pieces_of(operations: List[Tuple[PlannedMicroOperation, bool]]) -> List[Piece]:
    """The pieces of a write, from the micro-operations of its line in their order, each with
    whether it was kept. Neighbours that were both kept or both lost are one piece. Empty if no
    micro-operation is a write_block: only these have bytes."""
    pieces: List[Piece] = []
    for operation, is_kept in operations:
        if operation.kind == 'write_block':
            begin = pieces[-1].end if pieces else 0
            end = begin + int(operation.details.split()[-1])
            if pieces and pieces[-1].is_kept == is_kept:
                begin = pieces.pop().begin
            pieces.append(Piece(begin, end, is_kept))
    return pieces


def byte_ranges_text(pieces: List[Piece]) -> str:
    """Which bytes of the write the first SHOWN pieces are, as `0 to 9, 20 to 29`, and how many more
    pieces there are."""
    shown = [f'{piece.begin:,} to {piece.end - 1:,}' for piece in pieces[:SHOWN]]
    more = len(pieces) - SHOWN
    return ', '.join(shown) + (f' and {count_text(more, "more part")}' if more > 0 else '')
