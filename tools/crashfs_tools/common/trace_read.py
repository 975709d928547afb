"""Reads traces that `crashfs` checks: what it refuses isn't explained here."""

from __future__ import annotations

import dataclasses
from typing import Any, Dict, Iterable, Iterator, List, Optional, Tuple, Type

from .trace import (
    BLOCK_SIZES,
    BLOCKS,
    JOURNAL,
    KEYS,
    KINDS,
    PROFILES,
    SINCE,
    Header,
    Start,
    StartLink,
    StartSymlink,
    Trace,
)
from .sparse import SparseBytes
from .trace_fields import TraceError, parse_lines
from .tree import Tree

VERSIONS = (1, 2, 3, 4)
# What a header of each version may have as its profile; one of version 1 has none.
PROFILES_OF_VERSION = {1: (None,), 2: PROFILES, 3: PROFILES, 4: (*PROFILES, JOURNAL)}
STARTS: Dict[str, Type[Any]] = {'link': StartLink, 'symlink': StartSymlink}


def read_trace(trace_text: str) -> Trace:
    """The trace that a text has. TraceError if a line isn't one of the trace's version, or if there
    is no header. Whether the lines fit together isn't checked."""
    *_, (_, trace) = read_lines(trace_text.split('\n'))
    return trace


def read_trace_with_numbers(trace_text: str) -> Tuple[Trace, List[int]]:
    """The trace that a text has, and the number, from 1, of each operation's line. TraceError as
    read_trace()."""
    line_numbers: List[int] = []
    for number, trace in read_lines(trace_text.split('\n')):
        if len(trace.operations) > len(line_numbers):
            line_numbers.append(number)
    return trace, line_numbers


def tree_at_end(lines: Iterable[str]) -> Tree:
    """The tree at a trace's end; only one line at a time is in memory. TraceError as read_trace(),
    ValueError for an operation that is impossible in the tree. Start lines aren't checked in this
    way: an impossible one may raise KeyError."""
    tree: Optional[Tree] = None
    for number, trace in read_lines(lines):
        tree = tree or tree_without_start(trace)
        if trace.start:
            tree.add_start(trace.start.pop())
        if trace.operations:
            operation = trace.operations.pop()
            fault = tree.fault(operation)
            if fault:
                raise ValueError(f'line {number}: {fault}')
            tree.apply(operation)
    assert tree is not None
    return tree


def tree_without_start(trace: Trace) -> Tree:
    """The tree of a trace without its start lines: only the root, in the trace's version and
    profile, and with its size of blocks."""
    header = trace.header
    return Tree(header.owner, header.group, header.mode, trace.block, trace.version, trace.profile)


def read_lines(lines: Iterable[str]) -> Iterator[Tuple[int, Trace]]:
    """Reads a trace line by line. Yields each line's number, and always the same Trace, to which
    the line was added; the caller may remove lines from it. TraceError for a line that isn't one of
    the trace's version, and, at the end, if there was no header."""
    trace: Optional[Trace] = None
    for number, fields in parse_lines(lines):
        try:
            if trace is None:
                trace = read_trace_header(fields)
            else:
                read_line(trace, fields)
        except (ValueError, KeyError, TypeError, AttributeError, OverflowError) as error:
            raise TraceError(f'line {number} is no line of a trace ({error})') from error
        yield number, trace
    if trace is None:
        raise TraceError('it has no header')


def read_trace_header(fields: Dict[str, Any]) -> Trace:
    """A trace that has only this header. ValueError, KeyError or TypeError if its version is
    unknown, or its fields aren't those of its version."""
    version = fields['trace']
    header = Header(fields['owner'], fields['group'], int(fields['mode'], 8))
    profile, block = fields.get('profile'), fields.get('block')
    is_known = (
        version in VERSIONS
        and profile in PROFILES_OF_VERSION[version]
        and (block in BLOCK_SIZES if version > 2 else block is None)
    )
    if not is_known:
        raise ValueError(f'a header of version {version}, profile {profile}, block {block}')
    return Trace(header, version=version, profile=profile or BLOCKS, block=block or BLOCK_SIZES[-1])


def read_line(trace: Trace, fields: Dict[str, Any]) -> None:
    """Adds a start line or an operation to a trace, from its fields. From version 3 on `note` is
    removed from these, and an operation's is kept. ValueError, KeyError, TypeError, AttributeError
    or OverflowError if it isn't a line of the trace's version. Unknown keys aren't noticed."""
    version, is_start = trace.version, 'start' in fields
    note = fields.pop('note', None) if version >= 3 else None
    # Directories, files and start lines of an unknown kind are Start.
    line_class = STARTS.get(fields['start'], Start) if is_start else KINDS[fields['op']]
    if SINCE.get(line_class, 1) > version:
        raise ValueError(f'{fields} in a trace of version {version}')
    names = [attribute.name for attribute in dataclasses.fields(line_class)]
    item: Any = line_class(**{name: read_line_value(name, fields, version) for name in names})
    if is_start:
        trace.start.append(item)
        return
    if note is not None:
        trace.notes[len(trace.operations)] = note
    trace.operations.append(item)


def read_line_value(attribute: str, fields: Dict[str, Any], version: int) -> Any:
    """The value of an attribute of a line; None for the bytes of a directory. KeyError if the line,
    or a part, has no such field; ValueError, TypeError or, for an infinite number, OverflowError if
    bytes, parts or a mode can't be read. Parts may be in any order, and end past the length. Other
    values are kept as they are, of any type."""
    if attribute == 'data':
        if fields.get('start') == 'dir':
            return None
        if version >= 4 and 'parts' in fields:
            parts = [(int(part['at']), read_line_bytes(part, version)) for part in fields['parts']]
            return SparseBytes(int(fields['length']), parts)
        return read_line_bytes(fields, version)
    value = fields[KEYS.get(attribute, attribute)]
    return int(value, 8) if attribute == 'mode' else value


def read_line_bytes(fields: Dict[str, Any], version: int) -> bytes:
    """The bytes of a line or a part: `bytes`, in hexadecimal digits, or, since version 3 and if
    that is missing, `text`. KeyError if both are missing, TypeError if `bytes` isn't a text,
    ValueError for other digits. Blanks between bytes aren't noticed."""
    is_text = version >= 3 and 'bytes' not in fields
    return str(fields['text']).encode() if is_text else bytes.fromhex(fields['bytes'])
