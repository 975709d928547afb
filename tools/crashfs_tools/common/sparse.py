"""The bytes of a file, in memory for what isn't zero: a file of 1 GiB of zeros takes none."""

from __future__ import annotations

import re
from typing import Dict, Iterable, Iterator, List, Tuple, Union

# The model splits what an operation does to a file by its pages, whatever the size of a block; a
# mapping has whole pages too.
PAGE_BYTES = 4_096
ZEROS = bytes(PAGE_BYTES)
# Zeros inside a part that are fewer stay in it: a part of its own takes more room in a trace.
GAP_BYTES = 16
GAP = re.compile(b'\0{%d,}' % GAP_BYTES)
# Text that is long enough to be a part of its own: it takes half the room in a trace.
LONG_TEXT = re.compile(rb'[ -~\n]{48,}')
# A part has no more bytes, so that no line is made from one huge text.
PART_BYTES = 1 << 20
# Smaller files are kept whole.
LARGE_BYTES = 1 << 16

Part = Tuple[int, bytes]
Content = Union[bytes, bytearray, 'SparseBytes']


class SparseBytes:
    """Bytes that are changed in place. They begin as zeros; then `parts`, pieces with their
    offsets, are written by write(). pages has, by number, the pages that may have bytes other than
    zeros, each of PAGE_BYTES; a page's bytes after `length` are zeros."""

    __slots__ = ('length', 'pages')

    def __init__(self, length: int = 0, parts: Iterable[Part] = ()) -> None:
        """`length` zeros, into which the parts are written in turn; a part that ends past the
        length makes the bytes longer."""
        self.length = length
        self.pages: Dict[int, bytearray] = {}
        for offset, data in parts:
            self.write(offset, data)

    @staticmethod
    def copy_of(data: Content) -> SparseBytes:
        """A copy of bytes of any form, as SparseBytes."""
        if isinstance(data, SparseBytes):
            return data.copy()
        return SparseBytes(len(data), [(0, bytes(data))])

    def copy(self) -> SparseBytes:
        """A copy: a change of one doesn't change the other."""
        new = SparseBytes(self.length)
        new.pages = {number: page.copy() for number, page in self.pages.items()}
        return new

    def __len__(self) -> int:
        return self.length

    def __bytes__(self) -> bytes:
        return self.read(0, self.length)

    def __getitem__(self, bounds: slice) -> bytes:
        """The bytes of a slice without a step: a step isn't looked at."""
        begin, end, _ = bounds.indices(self.length)
        return self.read(begin, end - begin)

    def __eq__(self, other: object) -> bool:
        """Whether the bytes are equal, also to bytes of another form; which pages are kept doesn't
        matter."""
        if isinstance(other, SparseBytes):
            return self.length == other.length and dict(self.data_pages()) == dict(
                other.data_pages()
            )
        if isinstance(other, (bytes, bytearray)):
            return self.length == len(other) and self == SparseBytes.copy_of(other)
        return NotImplemented

    __hash__ = None  # type: ignore[assignment]  # its bytes change

    def data_pages(self) -> Iterator[Tuple[int, bytes]]:
        """The pages that aren't all zeros, each with its number, in no particular order."""
        for number, page in self.pages.items():
            if page != ZEROS:
                yield number, bytes(page)

    def read(self, offset: int, count: int) -> bytes:
        """The `count` bytes from an offset on: only those before the length, so none if the offset
        is past it."""
        end = min(offset + count, self.length)
        pieces = []
        while offset < end:
            number, begin_in_page = divmod(offset, PAGE_BYTES)
            end_in_page = min(PAGE_BYTES, begin_in_page + end - offset)
            pieces.append(self.pages.get(number, ZEROS)[begin_in_page:end_in_page])
            offset += end_in_page - begin_in_page
        return b''.join(pieces)

    def write(self, offset: int, data: Union[bytes, bytearray]) -> None:
        """Puts bytes at an offset. The length grows to their end if it is less, also for no bytes,
        with zeros up to the offset. Zeros make no new pages; pages that get only zeros are kept."""
        self.length = max(self.length, offset + len(data))
        written = 0
        while written < len(data):
            number, begin_in_page = divmod(offset + written, PAGE_BYTES)
            piece = data[written : written + PAGE_BYTES - begin_in_page]
            written += len(piece)
            if number not in self.pages:
                if piece.count(0) == len(piece):
                    continue
                self.pages[number] = bytearray(PAGE_BYTES)
            self.pages[number][begin_in_page : begin_in_page + len(piece)] = piece

    def clear(self, begin: int, end: int) -> None:
        """Makes the bytes from offset `begin` to before `end` zeros, and drops the pages of which
        all bytes are among these and before the length. The length stays."""
        end = min(end, self.length)
        first_number, end_number = begin // PAGE_BYTES, -(-end // PAGE_BYTES)
        numbers: Iterable[int] = range(first_number, end_number)
        if end_number - first_number > len(self.pages):
            numbers = [number for number in self.pages if first_number <= number < end_number]
        for number in numbers:
            page_begin = number * PAGE_BYTES
            begin_in_page = max(0, begin - page_begin)
            end_in_page = min(PAGE_BYTES, end - page_begin)
            if end_in_page - begin_in_page == PAGE_BYTES:
                self.pages.pop(number, None)
            elif begin_in_page < end_in_page and number in self.pages:
                self.pages[number][begin_in_page:end_in_page] = bytes(end_in_page - begin_in_page)

    def data_ranges(self, begin: int, end: int) -> List[Tuple[int, int]]:
        """The parts of a range whose pages aren't all zeros, each as its two ends, ascending. A
        part may begin where another one ends, as runs of page_runs() do."""
        ranges = []
        for run_begin, run in self.page_runs():
            range_begin, range_end = max(begin, run_begin), min(end, run_begin + len(run))
            if range_begin < range_end:
                ranges.append((range_begin, range_end))
        return ranges

    def resize(self, length: int) -> None:
        """Cuts the bytes, or adds zeros. Bytes that were cut are zeros if the length grows
        again."""
        if length < self.length:
            self.clear(length, self.length)
        self.length = length

    def parts(self) -> List[Part]:
        """What isn't zero, as pieces with their offsets, ascending. Each LONG_TEXT is a part by
        itself. Any other part has fewer than GAP_BYTES zeros in a row, and zeros at an edge only
        next to a long text."""
        return [part for begin, run in self.page_runs() for part in split_parts(begin, run)]

    def page_runs(self) -> Iterator[Part]:
        """The pages that aren't all zeros, as runs with their offsets, ascending: neighbours are
        joined up to PART_BYTES. The last page ends at the length."""
        run_begin = 0
        pages: List[bytes] = []
        for number, page in sorted(self.data_pages()):
            page_begin = number * PAGE_BYTES
            size = len(pages) * PAGE_BYTES
            if pages and (page_begin != run_begin + size or size >= PART_BYTES):
                yield run_begin, b''.join(pages)
                pages = []
            run_begin = run_begin if pages else page_begin
            pages.append(page[: self.length - page_begin])
        if pages:
            yield run_begin, b''.join(pages)


def round_up_to_pages(length: int) -> int:
    """The smallest multiple of PAGE_BYTES that is at least a length: the end of the last page of a
    file of this length."""
    return -(-length // PAGE_BYTES) * PAGE_BYTES


def runs_of(data: Content) -> List[Part]:
    """Bytes of any form as runs with their offsets: the page_runs() of SparseBytes, or else all
    bytes as one run, which is empty if there are none."""
    return list(data.page_runs()) if isinstance(data, SparseBytes) else [(0, bytes(data))]


def split_parts(begin: int, data: bytes) -> Iterator[Part]:
    """The bytes at offset `begin` of a file, as parts in the form of SparseBytes.parts(), each
    with its offset."""
    piece_begin = 0
    for gap in GAP.finditer(data):
        yield from split_texts(begin + piece_begin, data[piece_begin : gap.start()])
        piece_begin = gap.end()
    yield from split_texts(begin + piece_begin, data[piece_begin:])


def split_texts(begin: int, data: bytes) -> Iterator[Part]:
    """The bytes at an offset of a file, without the zeros at their edges, split so that each
    LONG_TEXT is a part by itself. Each part comes with its offset; there is none if all bytes are
    zeros."""
    begin += len(data) - len(data.lstrip(b'\0'))
    stripped, end = data.strip(b'\0'), 0
    for text in LONG_TEXT.finditer(stripped):
        if text.start() > end:
            yield begin + end, stripped[end : text.start()]
        yield begin + text.start(), text[0]
        end = text.end()
    if stripped[end:]:
        yield begin + end, stripped[end:]


def first_difference(left: Content, right: Content) -> int:
    """The offset of the first byte in which two files differ. If one is the beginning of the other,
    it is the length of the shorter one; if they are equal, the length of both."""
    length = min(len(left), len(right))
    for begin in pages_to_compare(left, right, length):
        end = min(begin + PAGE_BYTES, length)
        left_page, right_page = bytes(left[begin:end]), bytes(right[begin:end])
        if left_page != right_page:
            return begin + next(
                offset for offset in range(end - begin) if left_page[offset] != right_page[offset]
            )
    return length


def pages_to_compare(left: Content, right: Content, length: int) -> Iterable[int]:
    """The offsets of the pages before `length` in which two files can differ, ascending. If both
    are SparseBytes, pages that neither of them has are left out."""
    if isinstance(left, SparseBytes) and isinstance(right, SparseBytes):
        numbers = sorted(left.pages.keys() | right.pages.keys())
        return (number * PAGE_BYTES for number in numbers if number * PAGE_BYTES < length)
    return range(0, length, PAGE_BYTES)
