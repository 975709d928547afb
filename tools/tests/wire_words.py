"""Messages of 9P2000 in words, as bytes: `walk 0 1 d/s`, `create 1 a dir:777 0`."""

from __future__ import annotations

import struct
from typing import Callable, Dict, Iterator, Optional, Tuple

NOFID = 0xFFFFFFFF
# The bits before the digits of a mode, by their words (stat(5)).
BITS = {
    'dir': 0x80000000,
    'append': 0x40000000,
    'excl': 0x20000000,
    'auth': 0x08000000,
    'tmp': 0x04000000,
}
# The integers of a stat and their bytes: kind, vers and path are its qid's.
INTEGERS = (
    ('type', 2),
    ('dev', 4),
    ('kind', 1),
    ('vers', 4),
    ('path', 8),
    ('mode', 4),
    ('atime', 4),
    ('mtime', 4),
    ('length', 8),
)
# A word for a message, its type, and its fields: a letter for each, as in FIELDS.
KINDS: Dict[str, Tuple[int, str]] = {
    'version': (100, '4s'),
    'auth': (102, '4ss'),
    'attach': (104, '4oss'),
    'attach_by': (104, '44ss'),
    'flush': (108, '2'),
    'walk': (110, '44n'),
    'open': (112, '41'),
    'create': (114, '4sp1'),
    'read': (116, '484'),
    'list': (116, '484'),
    'count': (116, '484'),
    'write': (118, '48d'),
    'clunk': (120, '4'),
    'remove': (122, '4'),
    'stat': (124, '4'),
    'wstat': (126, '4w'),
}


def number(width: int) -> Callable[[str], bytes]:
    """What spells a number of so many bytes."""
    return lambda word: int(word).to_bytes(width, 'little')


def text(word: str) -> bytes:
    spelled = word.encode()
    return struct.pack('<H', len(spelled)) + spelled


def data(word: str) -> bytes:
    return struct.pack('<I', len(word.encode())) + word.encode()


def names(word: str) -> bytes:
    """Names between slashes."""
    parts = word.split('/') if word else []
    return struct.pack('<H', len(parts)) + b''.join(map(text, parts))


def mode_of(word: str) -> int:
    """Octal digits, after `dir:`, `append:`, or both, if it isn't a plain file's."""
    *bits, digits = word.split(':')
    return sum(BITS[bit] for bit in bits) | int(digits, 8)


def permissions(word: str) -> bytes:
    return struct.pack('<I', mode_of(word))


def stat(word: str) -> bytes:
    """The stat of a wstat that says "don't touch" of every field but those of `name=g,mode=600`."""
    changes = dict(change.split('=', 1) for change in word.split(',') if change)
    fields = b''.join(integer(width, changes.get(name), name == 'mode') for name, width in INTEGERS)
    fields += b''.join(text(changes.get(name, '')) for name in ('name', 'uid', 'gid', 'muid'))
    return struct.pack('<HH', len(fields) + 2, len(fields)) + fields


def integer(width: int, word: Optional[str], is_mode: bool) -> bytes:
    """A field of so many bytes: all ones if no word says what it is."""
    if word is None:
        return b'\xff' * width
    return (mode_of(word) if is_mode else int(word)).to_bytes(width, 'little')


FIELDS: Dict[str, Callable[[str], bytes]] = {
    '1': number(1),
    '2': number(2),
    '4': number(4),
    '8': number(8),
    's': text,
    'd': data,
    'n': names,
    'p': permissions,
    'w': stat,
}


def fields_of(letters: str, words: Iterator[str]) -> Iterator[bytes]:
    """The fields by their letters; `o` is NOFID and takes no word. A word that isn't there is
    empty."""
    for letter in letters:
        yield struct.pack('<I', NOFID) if letter == 'o' else FIELDS[letter](next(words, ''))


def message_of(words: str, tag: int = 1) -> bytes:
    """The bytes of a message in words."""
    word, *rest = words.split(' ')
    kind, letters = KINDS[word]
    body = b''.join(fields_of(letters, iter(rest)))
    return struct.pack('<IBH', len(body) + 7, kind, tag) + body
