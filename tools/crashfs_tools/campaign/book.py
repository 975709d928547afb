"""What a campaign has found: entries by what is the same in all sessions. It is kept in a file,
from which a later run continues."""

from __future__ import annotations

import json
import re
from dataclasses import asdict, dataclass, field
from pathlib import Path
from typing import Any, Dict, Iterable, List, Tuple

from crashfs_tools.common.command import Refused
from crashfs_tools.common.whole_files import write_whole_file

from .sessions import Failure

VERSION = 1
# The length of a kept trace that is a whole session; any other is a number of acknowledged lines.
WHOLE_SESSION = 0
# What differs between sessions with the same failure: numbers of lines, texts, and random names.
VARYING = re.compile(r'line \d+|"(?:[^"\\]|\\.)*"|\b[0-9a-f]{6,}\b|\d+')


@dataclass
class KnownFailure:
    """A failure of one or more sessions. `seed` is that of the first of these, `number` the
    failure's place in the book, from 1, and `sessions` how many have it. The kept trace is of the
    session of kept_seed, which acknowledges `says` lines, up to the line with the number
    `shortest`, unless that is WHOLE_SESSION. The file has the names of the fields."""

    failure: Failure
    seed: int
    number: int
    sessions: int = 1
    says: int = 0
    shortest: int = WHOLE_SESSION
    kept_seed: int = 0

    @property
    def trace(self) -> str:
        """The name of the file that has the kept trace."""
        return f'entry-{self.number}.trace'

    @property
    def page(self) -> str:
        """The name of the file that has the report of the kept trace."""
        return f'entry-{self.number}.html'

    @property
    def most_lines(self) -> int:
        """The most acknowledged lines with which another session is still shorter than the kept
        one; 0 if none can be. If a whole session is kept, these may be as many as it has: it also
        has what it does after its last line."""
        return self.says if self.shortest == WHOLE_SESSION else self.shortest - 1


@dataclass
class Book:
    """All that a campaign knows. path is the file to save it to. identity says which campaign it
    is, next_seed is the first seed that wasn't tried, sessions is how many were tried, and faults
    has the seeds without a verdict, with why. entries has the failures by failure_key()."""

    path: Path
    identity: List[object]
    next_seed: int
    sessions: int = 0
    entries: Dict[str, KnownFailure] = field(default_factory=dict)
    faults: List[Tuple[int, str]] = field(default_factory=list)

    def save(self) -> None:
        """Replaces the book's file as a whole; another run continues from it. OSError as
        write_whole_file(): then the old file stays, unless only the sync of its directory
        failed."""
        fields = {
            'crashfs-campaign': VERSION,
            'identity': self.identity,
            'next_seed': self.next_seed,
            'sessions': self.sessions,
            'faults': self.faults,
            'entries': [{'key': key, **asdict(entry)} for key, entry in self.entries.items()],
        }
        write_whole_file(str(self.path), [json.dumps(fields, indent=1), '\n'])


def read_book(path: Path, identity: List[object], first_seed: int) -> Book:
    """The book that an earlier run left in the file; a new one, which begins with first_seed, if
    there is no file. The next seed is the one after the last that was tried, or first_seed if that
    is later. Refused if the file is no book of this VERSION, or of a campaign with another
    identity; OSError if it can't be read."""
    if not path.exists():
        return Book(path, identity, first_seed)
    try:
        fields = json.loads(path.read_text('utf-8', 'surrogateescape'))
        is_same = fields['crashfs-campaign'] == VERSION and fields['identity'] == identity
        if is_same:
            return book_of_fields(path, fields, first_seed)
    except (ValueError, KeyError, TypeError, AttributeError, RecursionError) as error:
        raise Refused(f'{path} is no file of crashfs-campaign') from error
    raise Refused(f'{path} is of other commands: name another directory')


def book_of_fields(path: Path, fields: Dict[str, Any], first_seed: int) -> Book:
    """The book whose save() wrote these fields; its next seed is at least first_seed. ValueError,
    KeyError, TypeError or AttributeError if the fields are of no book; of the numbers and texts in
    them only next_seed is checked."""
    next_seed = max(first_seed, fields['next_seed'])
    book = Book(path, fields['identity'], next_seed, fields['sessions'])
    book.faults = [(seed, text) for seed, text in fields['faults']]
    for entry in fields['entries']:
        known_fields: Dict[str, Any] = {**entry, 'failure': Failure(**entry['failure'])}
        key = known_fields.pop('key')
        book.entries[key] = KnownFailure(**known_fields)
    return book


def failure_key(failure: Failure) -> str:
    """What is the same of a failure in all sessions: its cause up to the first colon, and its first
    sentence, if there is one, with `#` in place of what varies: numbers of lines (`line 7`), other
    numbers, quoted texts, and words of six or more hexadecimal digits, such as random names. The
    file has these keys: if they were made in another way, known failures would count as new."""
    kind = failure.cause.partition(':')[0]
    return VARYING.sub('#', ': '.join([kind, *failure.text[:1]]))


def failures_by_key(failures: Iterable[Failure]) -> Dict[str, Failure]:
    """The failures of a session by failure_key(), in their order; the first one of those that have
    the same key."""
    first_failures: Dict[str, Failure] = {}
    for failure in failures:
        first_failures.setdefault(failure_key(failure), failure)
    return first_failures
