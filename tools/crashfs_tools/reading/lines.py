"""The lines of a trace: what each contains by itself, or its first fault."""

from __future__ import annotations

import re
from dataclasses import dataclass
from typing import Any, Dict, Iterator, List, Set, Tuple

from .faults import LineFault, syntax_fault
from .json_lines import is_trace_number, read_object

NAME_BYTES, USER_BYTES, TARGET_BYTES = 255, 64, 4_095
BLOCK_SIZES = (512, 1024, 2048, 4096)
# From the one that allows the most sets to the one that allows the least.
PROFILES = ('blocks', 'ordered', 'journal')
# The profiles that only later versions have.
PROFILES_SINCE = {'journal': 4}
# The versions of traces, each with the keys of its header besides `trace` and RIGHTS.
HEADERS = {1: (), 2: ('profile',), 3: ('profile', 'block'), 4: ('profile', 'block')}
OWNERS = ('owner', 'group')
RIGHTS = (*OWNERS, 'mode')
# The kinds of lines: the first version that has each, and its keys.
KINDS: Dict[str, Dict[str, Tuple[int, Tuple[str, ...]]]] = {
    'start': {
        'dir': (1, ('path', *RIGHTS)),
        'file': (1, ('path', *RIGHTS, 'bytes')),
        'link': (3, ('path', 'from')),
        'symlink': (4, ('path', *OWNERS, 'target')),
    },
    'op': {
        'creat': (1, ('path', *RIGHTS)),
        'mkdir': (1, ('path', *RIGHTS)),
        'unlink': (1, ('path',)),
        'rmdir': (1, ('path',)),
        'rename': (1, ('from', 'to')),
        'link': (3, ('from', 'to')),
        'symlink': (4, ('path', *OWNERS, 'target')),
        'write': (1, ('path', 'offset', 'bytes')),
        'truncate': (1, ('path', 'length')),
        'chmod': (2, ('path', 'mode')),
        'chown': (2, ('path', 'owner', 'group')),
        'fsync': (1, ('path',)),
        'fdatasync': (4, ('path',)),
        'fsync_range': (3, ('path', 'offset', 'length')),
        'sync': (1, ()),
        'say': (1, ('text',)),
    },
}
# The words of operations that may have the path `/`.
ROOT_WORDS = ('fsync', 'chmod', 'chown')
# The keys whose values are paths.
PATHS = ('path', 'from', 'to')
MODE = re.compile('[0-7]{3}')
HEXADECIMAL = '0123456789abcdefABCDEF'

Fields = Dict[str, Any]


@dataclass(frozen=True)
class Line:
    """A line of a trace, well formed once LineReader.read_line() has returned it: its number in the
    trace, the key that says what it is (`trace`, `start` or `op`), its word, which is the value of
    that key but empty for the header, and all keys with their values."""

    number: int
    key: str
    word: str
    fields: Fields

    def paths(self) -> Iterator[str]:
        """The paths that the line has, in the order of PATHS: none if it is a header, a sync or a
        say."""
        return (self.fields[key] for key in PATHS if key in self.fields)

    @property
    def rights(self) -> Tuple[str, str, str]:
        """The owner, the group and the mode. KeyError if the line lacks one of them."""
        return self.fields['owner'], self.fields['group'], self.fields['mode']

    @property
    def file_parts(self) -> List[Tuple[int, bytes]]:
        """The parts of a start file, each after its offset. A file that isn't in parts has one
        part, with all its bytes, which may be none."""
        if 'parts' not in self.fields:
            return [(0, bytes_of(self.fields))]
        return [(part['at'], bytes_of(part)) for part in self.fields['parts']]

    @property
    def file_length(self) -> int:
        """The length of a start file: its `length` if it is in parts, else how many bytes it
        has."""
        if 'parts' in self.fields:
            return int(self.fields['length'])
        return len(bytes_of(self.fields))


def bytes_of(fields: Fields) -> bytes:
    """The bytes of a line, or of a part of a file: those of its `text` in UTF-8, or else those that
    the digits of its `bytes` mean, which check_value() must have accepted. KeyError if it has
    neither."""
    if 'text' in fields:
        return str(fields['text']).encode('utf-8')
    return bytes.fromhex(fields['bytes'])


class LineReader:
    """Reads the lines of a trace one after the other, the header first. Each line is checked by
    itself: whether it fits the tree isn't checked here. `version` is the header's, or 0 before the
    header; has_operation is set once an operation was read."""

    version = 0
    has_operation = False

    def read_line(self, number: int, text: str) -> Line:
        """The line with this number, from its text. LineFault for the first fault that the line has
        by itself. Read the lines in their order, without empty ones, and none after a fault."""
        fields = read_object(text)
        keys = [key for key in ('trace', 'start', 'op') if key in fields]
        if len(keys) != 1:
            raise syntax_fault('it needs one of the keys trace, start and op')
        is_header = keys == ['trace']
        if is_header != (self.version == 0):
            raise syntax_fault('the first line, and no other, is the header')
        if is_header:
            line = self.read_header(number, fields)
        else:
            line = self.read_start_or_operation(number, keys[0], fields)
        check_paths(line)
        check_owners(line)
        return line

    def read_header(self, number: int, fields: Fields) -> Line:
        """The header, from its number and its keys with their values. Sets `version` to that of the
        header. LineFault if the version is unknown, or has no such profile; and as check_fields().
        """
        version = fields['trace']
        if not is_trace_number(version) or version not in HEADERS:
            raise syntax_fault(f'version {version} is not known ({", ".join(map(str, HEADERS))})')
        self.version = version
        line = Line(number, 'trace', '', fields)
        self.check_fields(line, (*HEADERS[version], *RIGHTS))
        profile = fields.get('profile', 'blocks')
        if PROFILES_SINCE.get(profile, 1) > version:
            raise syntax_fault(f'profile "{profile}" is not known in version {version}')
        return line

    def read_start_or_operation(self, number: int, key: str, fields: Fields) -> Line:
        """A start line or an operation, as the key `start` or `op` says, from its number and its
        keys with their values. Sets has_operation for an operation. LineFault for a start line
        after an operation, for a word that is no text or that the version lacks (UnknownOp); and as
        check_fields()."""
        if key == 'start' and self.has_operation:
            raise syntax_fault('a start line after an operation')
        self.has_operation = key == 'op'
        word = fields[key]
        if not isinstance(word, str):
            raise syntax_fault(f'{key} is no text')
        first_version, keys = KINDS[key].get(word, (self.version + 1, ()))
        if first_version > self.version:
            raise LineFault('UnknownOp', f'unknown {key} "{word}" in version {self.version}')
        line = Line(number, key, word, fields)
        self.check_fields(line, keys)
        return line

    def check_fields(self, line: Line, keys: Tuple[str, ...]) -> None:
        """LineFault if a line lacks one of expected_keys(), has another key, or has a value that
        its key may not have. `keys` are those of its word, or of a header of this version."""
        expected_keys, own_keys = self.expected_keys(line, keys), line.fields.keys()
        if own_keys - expected_keys:
            raise syntax_fault(f'unknown key "{min(own_keys - expected_keys)}"')
        if expected_keys - own_keys:
            raise syntax_fault(f'no key "{min(expected_keys - own_keys)}"')
        for key in sorted(expected_keys - {line.key}):
            check_value(key, line.fields[key])
        if 'parts' in expected_keys:
            check_parts(line)
        if line.word == 'symlink':
            check_target(line.fields['target'])

    def expected_keys(self, line: Line, keys: Tuple[str, ...]) -> Set[str]:
        """The keys that a line must have: the one that says what it is, `keys`, and since version 3
        its `note`, if it has one. If `keys` have `bytes` but the line doesn't, keys_of_bytes() are
        in its place."""
        expected_keys = {line.key, *keys}
        if self.version >= 3:
            expected_keys |= line.fields.keys() & {'note'}
        if 'bytes' in expected_keys and 'bytes' not in line.fields:
            expected_keys = expected_keys - {'bytes'} | self.keys_of_bytes(line)
        return expected_keys

    def keys_of_bytes(self, line: Line) -> Set[str]:
        """The keys by which a line that lacks `bytes` must give its bytes: `length` and `parts` if
        a start file has `parts`, else `text` if it has that. `bytes` if it has neither, or if its
        version allows neither."""
        if self.version >= 4 and line.key == 'start' and 'parts' in line.fields:
            return {'length', 'parts'}
        return {'text' if self.version >= 3 and 'text' in line.fields else 'bytes'}


def check_value(key: str, value: Any) -> None:
    """LineFault for a value that its key may not have. A key that isn't named here may have any
    text. What the objects of `parts` have is checked by check_parts(), not here."""
    if key in ('offset', 'length', 'block', 'at'):
        if not is_trace_number(value) or key == 'block' and value not in BLOCK_SIZES:
            raise syntax_fault(f'{key} {value} is no number that it may have')
    elif key == 'parts':
        if not isinstance(value, list) or not all(isinstance(part, dict) for part in value):
            raise syntax_fault('parts is no array of objects')
    elif not isinstance(value, str):
        raise syntax_fault(f'{key} is no text')
    elif key == 'mode' and not MODE.fullmatch(value):
        raise syntax_fault(f'mode "{value}" is not three octal digits')
    elif key == 'bytes' and value.strip(HEXADECIMAL):
        raise syntax_fault('bytes has a character that is no hexadecimal digit')
    elif key == 'bytes' and len(value) % 2:
        raise syntax_fault('bytes has an odd number of digits')
    elif key == 'profile' and value not in PROFILES:
        raise syntax_fault(f'profile "{value}" is not known ({", ".join(PROFILES)})')


def check_parts(line: Line) -> None:
    """LineFault if the parts of a start file have a fault: first as check_part() for each of them,
    then as check_part_order()."""
    for part in line.fields['parts']:
        check_part(part)
    check_part_order(line.file_parts, line.file_length)


def check_part(part: Fields) -> None:
    """LineFault unless a part of a start file has `at`, one of `bytes` and `text`, and nothing
    else, with values that these keys may have."""
    if set(part) not in ({'at', 'bytes'}, {'at', 'text'}):
        raise syntax_fault('a part has at, and bytes or text, and nothing else')
    for key, value in part.items():
        check_value(key, value)


def check_part_order(parts: List[Tuple[int, bytes]], length: int) -> None:
    """LineFault unless the parts of a file of this length, each after its offset, are ascending,
    don't overlap, aren't empty, and end at the length at the latest."""
    end = 0
    for begin, data in parts:
        if not data:
            raise syntax_fault(f'the part at {begin} is empty')
        if begin < end:
            why = f'the part at {begin} begins before {end}, where the one before it ends'
            raise syntax_fault(why)
        end = begin + len(data)
    if end > length:
        raise syntax_fault(f'a part ends at {end}, past the length {length}')


def check_target(target: str) -> None:
    """LineFault for a symbolic link's target that is empty, longer than TARGET_BYTES, or has a
    NUL."""
    if not is_name_text(target, TARGET_BYTES):
        raise syntax_fault(f'a target is 1 to {TARGET_BYTES} bytes without NUL')


def check_paths(line: Line) -> None:
    """LineFault (BadName) for a path that no file or directory can have. The path `/` is accepted
    only in an fsync, a chmod and a chown."""
    for path in line.paths():
        if path == '/' and line.word in ROOT_WORDS:
            continue
        if not path.startswith('/') or not all(map(is_file_name, path[1:].split('/'))):
            raise LineFault('BadName', f'the path "{path}"')


def check_owners(line: Line) -> None:
    """LineFault (BadName) for an owner or a group that isn't 1 to USER_BYTES bytes without NUL. A
    line that lacks them has no such fault."""
    for key in OWNERS:
        name = line.fields.get(key)
        if name is not None and not is_name_text(name, USER_BYTES):
            raise LineFault('BadName', f'the {key} "{name}"')


def is_name_text(text: str, most_bytes: int) -> bool:
    """Whether a text has 1 to `most_bytes` bytes in UTF-8, none of them NUL."""
    return 1 <= len(text.encode('utf-8')) <= most_bytes and '\0' not in text


def is_file_name(name: str) -> bool:
    """Whether a text, which has no slash, may be one name of a path: 1 to NAME_BYTES bytes without
    NUL, but not `.` or `..`."""
    return is_name_text(name, NAME_BYTES) and name not in ('.', '..')
