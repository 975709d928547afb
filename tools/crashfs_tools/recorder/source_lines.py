"""Finds the source lines of addresses in programs by `addr2line`."""

from __future__ import annotations

import re
import shutil
import struct
import subprocess
from typing import BinaryIO, Dict, Iterable, List, NamedTuple, Sequence, Tuple

# A program's file, and the offset in it to which a call returns.
Address = Tuple[str, int]
# What an ELF file begins with; then comes a byte for 64 bits or 32, and one for the order of bytes.
ELF_MARK, CLASS_64, LITTLE_ENDIAN = b'\x7fELF', b'\2', b'\1'
# The kind of a segment that is loaded.
LOAD = 1
# What addr2line prints for a source line if it doesn't know the file or the number.
UNKNOWN_LINE = re.compile(r'^\?|:[?0]$')


class Frame(NamedTuple):
    """A function, and one of its source lines with its file, as `/src/kv.c:85`."""

    function: str
    source_line: str


class Segment(NamedTuple):
    """A part of a program's file that is loaded: its offset there, its address in the program's
    address space, and its size."""

    offset: int
    address: int
    size: int


class ElfLayout(NamedTuple):
    """How the headers of an ELF file have their numbers, in the formats of struct. The file's
    header has, at two places, the offset of the table of segments, and the size and the number of
    its entries. An entry has a segment's kind, offset, address and size."""

    table_place: int
    table_format: str
    sizes_place: int
    entry_format: str


ELF_32 = ElfLayout(28, '<I', 42, '<III4xI')
ELF_64 = ElfLayout(32, '<Q', 54, '<I4xQQ8xQ')


def read_segments(path: str) -> List[Segment]:
    """The loaded segments of a program's file. Empty if it isn't an ELF file that parse_segments()
    reads, or if it can't be read."""
    try:
        with open(path, 'rb') as file:
            return parse_segments(file)
    except (OSError, ValueError, struct.error):
        return []


def parse_segments(file: BinaryIO) -> List[Segment]:
    """The loaded segments that the headers of an ELF file list. Empty for any other file, and for
    one with the most significant byte first. struct.error if the headers are cut, ValueError if the
    table is at an offset that no file has, OSError if the file can't be read."""
    header = file.read(64)
    if header[:4] != ELF_MARK or header[5:6] != LITTLE_ENDIAN:
        return []
    layout = ELF_64 if header[4:5] == CLASS_64 else ELF_32
    (table,) = struct.unpack_from(layout.table_format, header, layout.table_place)
    entry_size, entry_count = struct.unpack_from('<HH', header, layout.sizes_place)
    segments = []
    for index in range(entry_count):
        file.seek(table + index * entry_size)
        entry = file.read(entry_size)
        kind, offset, address, size = struct.unpack_from(layout.entry_format, entry)
        if kind == LOAD:
            segments.append(Segment(offset, address, size))
    return segments


def address_of_offset(offset: int, segments: Iterable[Segment]) -> int:
    """The address, in a program's address space, of the byte at an offset of its file. It is equal
    to the offset if no segment has that byte."""
    for segment in segments:
        if segment.offset <= offset < segment.offset + segment.size:
            return offset - segment.offset + segment.address
    return offset


def source_frames(addresses: Iterable[Address]) -> Dict[Address, List[Frame]]:
    """The frames at each address, the innermost first: more than one if functions are inlined. An
    address without debugging information is left out; all are if there is no addr2line. Runs
    addr2line for each program, without a time limit; OSError if it can't be started."""
    addr2line = shutil.which('addr2line')
    if addr2line is None:
        return {}
    frames_by_address: Dict[Address, List[Frame]] = {}
    for path, offsets in offsets_by_program(addresses).items():
        program_addresses = [(path, offset) for offset in offsets]
        frames_by_address.update(zip(program_addresses, run_addr2line(addr2line, path, offsets)))
    return {address: frames for address, frames in frames_by_address.items() if frames}


def offsets_by_program(addresses: Iterable[Address]) -> Dict[str, List[int]]:
    """The offsets of addresses, each once, by their program's file."""
    offsets: Dict[str, List[int]] = {}
    for path, offset in dict.fromkeys(addresses):
        offsets.setdefault(path, []).append(offset)
    return offsets


def run_addr2line(addr2line: str, path: str, offsets: List[int]) -> List[List[Frame]]:
    """The frames at each of these offsets, to which calls return, in a program's file; fewer than
    offsets if addr2line fails. It runs without a time limit. OSError if it can't be started."""
    segments = read_segments(path)
    # The byte before the one to which a call returns is of the call.
    addresses = [address_of_offset(offset, segments) - 1 for offset in offsets]
    completed = subprocess.run(
        [addr2line, '-a', '-C', '-f', '-i', '-e', path],
        input=''.join(f'{address:#x}\n' for address in addresses),
        check=False,
        stdout=subprocess.PIPE,
        stderr=subprocess.DEVNULL,
        encoding='utf-8',
        errors='replace',
    )
    return [parse_frames(lines) for lines in split_by_address(completed.stdout.splitlines())]


def split_by_address(lines: Iterable[str]) -> List[List[str]]:
    """The lines of addr2line after each line that begins with `0x`, which is an address, up to the
    next one; without those of the addresses."""
    groups: List[List[str]] = []
    for line in lines:
        if line.startswith('0x'):
            groups.append([])
        elif groups:
            groups[-1].append(line)
    return groups


def parse_frames(lines: Sequence[str]) -> List[Frame]:
    """The frames in the lines of addr2line for one address: in turn a function and its source line.
    Those whose source line isn't known are left out."""
    pairs = zip(lines[::2], lines[1::2])
    # After a blank there may be a discriminator.
    frames = [Frame(function, source_line.partition(' ')[0]) for function, source_line in pairs]
    return [frame for frame in frames if not UNKNOWN_LINE.search(frame.source_line)]
