"""Lists, failing states and entries of a tree in the sentences of a report."""

from __future__ import annotations

from typing import Sequence

from crashfs_tools.common.entry import Entry
from crashfs_tools.common.printable import count_text


def joined_by(word: str, names: Sequence[str]) -> str:
    """Names with commas, and a word such as `and` before the last one: `a, b and c`. The text
    `none` if there are no names."""
    *others, last = names or ['none']
    return f'{", ".join(others)} {word} {last}' if others else last


def fail_verb(count: int) -> str:
    """The verb after a count of states: `fails` for 1, else `fail`."""
    return 'fails' if count == 1 else 'fail'


def fail_text(count: int) -> str:
    """How many states or trees fail, as text: `3 fail`, `none fails`."""
    return f'{count:,} {fail_verb(count)}' if count else 'none fails'


def failing_states_text(count: int) -> str:
    """A count of failing states as the beginning of a sentence: `1 state fails`, `0 states
    fail`."""
    return f'{count_text(count, "state")} {fail_verb(count)}'


def kind_text(entry: Entry) -> str:
    """What an entry is, without its size: `a file`, `a directory` or a symbolic link with its
    target."""
    return entry.kind if entry.link is None else f'{entry.kind} to {entry.link}'


def size_text(entry: Entry) -> str:
    """The size of a file, as `1,024 bytes`; for a directory or a symbolic link its kind_text()."""
    return kind_text(entry) if entry.data is None else f'{len(entry.data):,} bytes'
