"""Parses the arguments of a call as strace prints them with -y and -xx, which shows each byte of a
string in hexadecimal digits. An argument in this form is a `word`."""

from __future__ import annotations

import re
from binascii import unhexlify
from dataclasses import dataclass
from typing import List, Optional

MARK = re.compile(r'[",()\[\]{}]')
DESCRIPTOR = re.compile(r'^(-?\d+|AT_FDCWD|0x[0-9a-f]+)(?:<(.*)>)?(\(deleted\))?$', re.S)
PIECE = re.compile(r'iov_base=("[^"]*"(?:\.\.\.)?|0x[0-9a-f]+|NULL)')
CURRENT_DIRECTORY = -100
# What a packed word begins with, as no word of strace's does.
PACKED = '='


class LogError(Exception):
    """A log that isn't as strace writes it with the options that it needs."""

    def __init__(self, text: str = 'the log is not as strace -f -y -xx writes it') -> None:
        """The text is what the user sees; another one also says where in the log that is."""
        super().__init__(text)


@dataclass(frozen=True)
class Descriptor:
    """A descriptor's number, what strace shows for it, as a path or `pipe:[7]` (None if it shows
    nothing), and whether its file is unlinked."""

    number: int
    text: Optional[str]
    is_deleted: bool

    @property
    def path(self) -> Optional[str]:
        """The path of its file; None if strace shows none, as for a socket or a pipe."""
        return self.text if self.text is not None and self.text.startswith('/') else None


# What is no descriptor.
NO_DESCRIPTOR = Descriptor(-1, None, is_deleted=False)


def split_arguments(text: str) -> List[str]:
    """The arguments of a call, from the text between its brackets: it is split at the commas
    outside of inner brackets and strings, and blanks around an argument are left out. An empty text
    is one empty argument. An inner bracket or string that has no end extends to the text's end."""
    words, depth, start = [], 0, 0
    match = MARK.search(text)
    while match:
        mark, position = match[0], match.end()
        if mark == '"':
            # The content is in hexadecimal digits, so it has no quotation mark.
            end = text.find('"', position)
            position = len(text) if end < 0 else end + 1
        elif mark == ',' and depth == 0:
            words.append(text[start : match.start()].strip())
            start = position
        elif mark in '([{':
            depth += 1
        elif mark in ')]}':
            depth -= 1
        match = MARK.search(text, position)
    words.append(text[start:].strip())
    return words


def parse_escapes(text: str) -> bytes:
    r"""The bytes of a text such as `\x61\x62`; LogError if it has anything else."""
    escapes, count = text.encode('ascii', 'replace'), len(text) // 4
    if len(text) % 4 or escapes[::4] != b'\\' * count or escapes[1::4] != b'x' * count:
        raise LogError
    digits = bytearray(2 * count)
    digits[::2], digits[1::2] = escapes[2::4], escapes[3::4]
    try:
        return unhexlify(digits)
    except ValueError:
        raise LogError from None


def escape_text(data: bytes) -> str:
    r"""The text such as `\x61\x62` as which strace -xx prints bytes; parse_escapes() reads it."""
    return ''.join(f'\\x{byte:02x}' for byte in data)


def pack_word(word: str) -> str:
    """A string argument, or a vector of strings, in a quarter of its size: PACKED, then a character
    for each byte. Returns the word unchanged if it has no string, if strace cut a string or printed
    its address, or if the bytes aren't in hexadecimal digits."""
    if '"' not in word:
        return word
    try:
        data = parse_bytes(word) if word.startswith('"') else parse_vector(word)
    except LogError:
        return word
    return word if data is None else PACKED + data.decode('latin-1')


def parse_bytes(word: str) -> Optional[bytes]:
    """The bytes of a string argument, packed or not. None if strace cut it, or printed something
    else, such as an address; LogError if its bytes aren't in hexadecimal digits."""
    if word.startswith(PACKED):
        return word[len(PACKED) :].encode('latin-1')
    if word.startswith('"') and not word.endswith('...'):
        return parse_escapes(word[1:-1])
    return None


def parse_path(word: str) -> Optional[str]:
    """The path in a string argument; bytes that are not UTF-8 become surrogates, as in os.fsdecode.
    None and LogError as in parse_bytes()."""
    data = parse_bytes(word)
    return None if data is None else data.decode('utf-8', 'surrogateescape')


def parse_shown_text(text: Optional[str]) -> Optional[str]:
    """The path that strace shows between `<` and `>` after a descriptor, in hexadecimal digits. Any
    other text there, such as `pipe:[7]`, is returned unchanged, and so is None, if strace shows
    nothing. LogError if only a part of a path is in such digits."""
    if not text or not text.startswith('\\x'):
        return text
    return parse_escapes(text).decode('utf-8', 'surrogateescape')


def parse_integer(word: str) -> int:
    """The number in an argument, decimal or `0x..`. LogError as in parse_digits()."""
    return parse_digits(word, 16 if word.startswith('0x') else 10)


def parse_digits(word: str, base: int) -> int:
    """The number in an argument, in digits of this base, as int() reads it; LogError if int()
    refuses it."""
    try:
        return int(word, base)
    except ValueError:
        raise LogError from None


def parse_descriptor(word: str) -> Descriptor:
    """The descriptor in an argument, with what strace shows for it. Its number is CURRENT_DIRECTORY
    for AT_FDCWD. NO_DESCRIPTOR for any other argument, also for an empty one. LogError as in
    parse_shown_text()."""
    match = DESCRIPTOR.match(word)
    if not match:
        return NO_DESCRIPTOR
    number = CURRENT_DIRECTORY if match[1] == 'AT_FDCWD' else parse_integer(match[1])
    return Descriptor(number, parse_shown_text(match[2]), is_deleted=bool(match[3]))


def parse_vector(word: str) -> Optional[bytes]:
    """The bytes of all pieces in a vector, as writev takes it, packed or not; only of the first
    pieces if strace shows no others. Empty if it shows none; None if strace cut a piece, or printed
    its address. LogError as in parse_bytes()."""
    if word.startswith(PACKED):
        return parse_bytes(word)
    pieces = [b'' if text == 'NULL' else parse_bytes(text) for text in PIECE.findall(word)]
    known_pieces = [piece for piece in pieces if piece is not None]
    return b''.join(known_pieces) if len(known_pieces) == len(pieces) else None


def parse_messages(word: str) -> Optional[bytes]:
    """The bytes of all messages in an argument of sendmmsg, each as far as it was sent. Empty if
    strace shows no message. None if strace cut one, or doesn't show how much of one was sent.
    LogError as in parse_bytes()."""
    sent_bytes = b''
    # Each message is shown as `{msg_hdr={.. msg_iov=[..] ..}, msg_len=5}`.
    for message in word.split('msg_hdr=')[1:]:
        data, length = parse_vector(message), re.search(r'msg_len=(\d+)', message)
        if data is None or length is None:
            return None
        sent_bytes += data[: int(length[1])]
    return sent_bytes


def parse_pointed_integer(word: str) -> Optional[int]:
    """The number to which an address in an argument points, as in `[42]`; in `[42] => [45]` the
    first, which was there before the call. None if strace shows no number, as for NULL."""
    match = re.match(r'\[(\d+)', word)
    return int(match[1]) if match else None
