"""The lines of a trace that `crashfs` has accepted, each read once: in words, as reports show them,
with the sync that makes each durable. And traces with more or fewer lines."""

from __future__ import annotations

import json
import re
from functools import lru_cache
from itertools import groupby
from operator import itemgetter
from typing import Any, Dict, Iterable, List, NamedTuple, Optional, Tuple

from . import limits
from .entry import parent_of
from .trace_fields import BLANKS, parse_line, parse_lines

ENCODING = 'utf-8', 'surrogateescape'

# Lines that change the file or directory of their path, and lines that change an entry.
CHANGES = ('write', 'truncate', 'chmod', 'chown')
ENTRY_CHANGES = ('creat', 'mkdir', 'unlink', 'rmdir', 'rename', 'link', 'symlink')
SYNCS = ('fsync', 'fdatasync', 'fsync_range', 'sync')
# Lines after which a path may name another file, or none.
PATH_CHANGES = ('rename', 'unlink', 'rmdir')
LARGEST_SAY = 40
# What differs from run to run in a name or a cause: hashes, the directories that are named by two
# digits of one, the six letters of mkstemp, and numbers.
RANDOM = [
    re.compile(form)
    for form in (
        r'(?<![0-9A-Za-z])(?=[0-9A-Za-z]*\d[A-Za-z]+\d)[0-9A-Za-z]{6,}',
        r'(?<=[_.-])(?=[0-9A-Za-z]*[a-z])(?=[0-9A-Za-z]*[A-Z0-9])[0-9A-Za-z]{6}(?![0-9A-Za-z])',
        r'(?<=/)[0-9a-f]{2}(?=/(?:[A-Za-z]+_)*#)|(?<=/objects/)[0-9a-f]{2}(?![^/])',
        r'\d+',
    )
]


@lru_cache(1 << 10)
def without_numbers(text: str) -> str:
    """A name, or the cause of a failure, with `#` in place of each number and random part, as
    RANDOM finds them."""
    for pattern in RANDOM:
        text = pattern.sub('#', text)
    return text


class TraceLine(NamedTuple):
    """An operation's line, in words. path is its first path, target the second one of a rename or
    link; details are as details_text() has them. What a line doesn't have is empty."""

    number: int
    word: str
    path: str = ''
    target: str = ''
    details: str = ''
    note: str = ''

    @property
    def text(self) -> str:
        """The line in words, as `write /f, 5 bytes at 0`, without its number and its note. Control
        characters in a path or a say aren't escaped."""
        if self.word == 'say':
            return f'say "{self.details}"'
        words = [self.word, self.path, f'to {self.target}' if self.target else '']
        text = ' '.join(word for word in words if word)
        return f'{text}, {self.details}' if self.details else text

    @property
    def text_with_number(self) -> str:
        """The line as sentences name it: `line 3 (creat /f)`."""
        return f'line {self.number} ({self.text})'

    @property
    def statement(self) -> str:
        """The word and the paths, without numbers and random parts: a text that is equal for all
        lines that one statement of a program makes."""
        return ' '.join([self.word, without_numbers(self.path), without_numbers(self.target)])

    def is_apart_from(self, other: TraceLine) -> bool:
        """Whether no path of this line is equal to, above or below a path of the other: then they
        have no file or directory in common, by these names. A line without a path, such as a sync
        of everything, is apart from all."""
        return not any(
            own_path.startswith(other_path) or other_path.startswith(own_path)
            for own_path in self.paths_with_slash
            for other_path in other.paths_with_slash
        )

    @property
    def paths_with_slash(self) -> List[str]:
        """The paths of the line, each with a slash at its end: two of a rename or link, none of a
        say or a sync of everything."""
        return [path.rstrip('/') + '/' for path in (self.path, self.target) if path]

    def may_change_path(self, path: str) -> bool:
        """Whether after this line a path at which something was may name another file or directory,
        or none: the line renames or removes what is there or a directory above it, or renames
        something to it. A rename of something to itself changes nothing."""
        if self.word not in PATH_CHANGES or self.path == self.target:
            return False
        return self.target == path or f'{path}/'.startswith(f'{self.path}/')

    @property
    def path_to_fsync(self) -> Optional[str]:
        """The path whose fsync makes the line durable: its own if it changes a file or directory;
        the parent of the entry that it makes or removes; for a rename or link the parent of the new
        entry. None if no fsync makes it durable, as for a sync or say."""
        if self.word in CHANGES:
            return self.path
        if self.word in ENTRY_CHANGES:
            return parent_of(self.target or self.path)
        return None


def details_text(fields: Dict[str, Any]) -> str:
    """What reports show of an operation in addition to its paths: a say's text, cut to LARGEST_SAY
    characters; the number of bytes of a write or an fsync_range, and their offset, or `all bytes`
    for the largest file of versions before 4; a symlink's target; a length; the rights that a chmod
    or chown sets. Empty for the others. KeyError if a key that it needs is missing; a right that is
    missing is left out."""
    word = fields['op']
    if word == 'say':
        text: str = fields['text']
        return text if len(text) <= LARGEST_SAY else f'{text[:LARGEST_SAY]}..'
    if word == 'write':
        # In `bytes` a byte has two digits.
        size = len(fields['text'].encode()) if 'text' in fields else len(fields['bytes']) // 2
        return f"{size:,} bytes at {fields['offset']:,}"
    if word == 'symlink':
        return f"target {fields['target']}"
    if word == 'truncate':
        return f"{fields['length']:,} bytes"
    if word == 'fsync_range':
        if fields['offset'] == 0 and fields['length'] == limits.FILE_BYTES:
            return 'all bytes'
        return f"{fields['length']:,} bytes at {fields['offset']:,}"
    if word not in ('chmod', 'chown'):
        return ''
    return ' '.join(fields[key] for key in ('mode', 'owner', 'group') if key in fields)


class TraceText(NamedTuple):
    """What reports need of a trace: its operations, by the numbers of their lines, and the
    acknowledged texts, uncut, in their order."""

    operations: Dict[int, TraceLine]
    acknowledged: List[str]


def parse_trace_text(text: str) -> TraceText:
    """The operations and acknowledged texts of a trace of any version that `crashfs` has accepted.
    Another text may raise TraceError, KeyError, TypeError or AttributeError."""
    operations: Dict[int, TraceLine] = {}
    acknowledged: List[str] = []
    for number, fields in parse_lines(text.split('\n')):
        if 'op' in fields:
            operations[number] = TraceLine(
                number,
                fields['op'],
                fields.get('path', fields.get('from', '')),
                target=fields.get('to', ''),
                details=details_text(fields),
                note=fields.get('note', ''),
            )
            if fields['op'] == 'say':
                acknowledged.append(fields['text'])
    return TraceText(operations, acknowledged)


def with_syncs(text: str, sync_points: Iterable[Tuple[int, str]]) -> str:
    """The text of a trace with more fsyncs. Each of `sync_points` has the number that a line has
    now, and the path of an fsync that is added after it; several after one line are in the order of
    their paths. A point after the last line is left out. Whether the trace has the paths isn't
    checked."""
    syncs_by_line = {
        number: [{'op': 'fsync', 'path': path} for _, path in points]
        for number, points in groupby(sorted(sync_points), itemgetter(0))
    }
    lines: List[str] = []
    for number, line in enumerate(text.split('\n'), 1):
        syncs = syncs_by_line.get(number, [])
        lines += [line, *(json.dumps(sync, ensure_ascii=False) for sync in syncs)]
    return '\n'.join(lines)


def without_says(text: str) -> str:
    """The text of a trace without its acknowledged lines; the same text if it has none. TraceError
    if a line isn't JSON, AttributeError if it isn't an object."""
    lines = text.split('\n')
    say_numbers = {number for number, fields in parse_lines(lines) if fields.get('op') == 'say'}
    return '\n'.join(line for number, line in enumerate(lines, 1) if number not in say_numbers)


def is_large_trace(lines: Iterable[str], least_entries: int, least_bytes: int) -> bool:
    """Whether a trace has at least `least_entries` start lines, or `least_bytes` bytes: those of
    its lines, with their ends, but for a truncate the length that it sets. No more lines are read
    than needed. TraceError if a line that is read isn't JSON; TypeError, AttributeError or KeyError
    if it isn't a line of a trace."""
    entries = size = 0
    for number, line in enumerate(lines, 1):
        fields = parse_line(number, line) if line.strip(BLANKS) else {}
        entries += 'start' in fields
        size += fields['length'] if fields.get('op') == 'truncate' else len(line.encode(*ENCODING))
        if entries >= least_entries or size >= least_bytes:
            return True
    return False
