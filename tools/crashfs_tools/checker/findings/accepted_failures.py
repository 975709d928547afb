"""Accepted failures: entries of a report that a project knows and has accepted, until a day."""

from __future__ import annotations

import datetime
import json
from typing import Any, Dict, Iterable, List, NamedTuple, Optional, Tuple

from crashfs_tools.common.command import Refused
from crashfs_tools.common.trace_lines import TraceLine, without_numbers


class AcceptedFailure(NamedTuple):
    """An entry of a file of accepted failures: its cause, the lost and the kept operation (an empty
    text if there is none), why it is accepted, and the last day on which it is; None for always."""

    cause: str
    lost: str
    kept: str
    why: str
    until: Optional[datetime.date] = None

    @property
    def key(self) -> Tuple[str, str, str]:
        """A key that is equal for entries whose causes and operations differ only in numbers and
        random parts. The reason and the last day don't count."""
        return without_numbers(self.cause), without_numbers(self.lost), without_numbers(self.kept)

    @property
    def fields(self) -> Dict[str, str]:
        """The entry as JSON has it, by its fields' names. Without a last day `until` is an empty
        text."""
        until = self.until.isoformat() if self.until else ''
        return {**self._asdict(), 'until': until}

    @property
    def name(self) -> str:
        """The name of the entry in a report: its cause, with its operations in parentheses if it
        has any."""
        operations = ', then '.join(filter(None, (self.lost, self.kept)))
        return f'{self.cause} ({operations})' if operations else self.cause


class Acceptance(NamedTuple):
    """The entry of a file of accepted failures that a group of failing states is, and whether the
    entry's last day has passed: the group isn't accepted then."""

    entry: AcceptedFailure
    has_expired: bool


class AcceptedFailures:
    """The entries of a file of --accept; of entries with the same key the last one counts."""

    def __init__(self, entries: List[AcceptedFailure], today: datetime.date) -> None:
        """`today` is the day with which last days are compared, whatever the clock says."""
        self.today = today
        self.entries = {entry.key: entry for entry in entries}

    @staticmethod
    def read(path: str) -> AcceptedFailures:
        """Reads the entries of a file; their last days are compared with the local date of this
        call. The file must be a JSON list in UTF-8, maybe empty, of entries that parse_entry()
        accepts: Refused if it isn't, or can't be read."""
        try:
            with open(path, encoding='utf-8') as file:
                values = json.load(file)
        except OSError as error:
            raise Refused(f'--accept {path}: {error.strerror}') from error
        except (ValueError, RecursionError) as error:
            raise Refused(f'--accept {path}: no JSON ({error})') from error
        if not isinstance(values, list):
            raise Refused(f'--accept {path}: no list of entries')
        entries = [parse_entry(path, place, value) for place, value in enumerate(values, 1)]
        return AcceptedFailures(entries, datetime.date.today())

    def acceptance_of(self, failure: AcceptedFailure) -> Optional[Acceptance]:
        """The entry with the same key as a failure, and whether its last day has passed: never if
        it has none. None if there is no such entry."""
        entry = self.entries.get(failure.key)
        if entry is None:
            return None
        return Acceptance(entry, entry.until is not None and self.today > entry.until)

    def entries_without(self, failures: Iterable[AcceptedFailure]) -> List[AcceptedFailure]:
        """The entries, except those with the key of one of the failures; also entries whose last
        day has passed."""
        seen = {failure.key for failure in failures}
        return [entry for key, entry in self.entries.items() if key not in seen]


def parse_entry(path: str, place: int, value: Any) -> AcceptedFailure:
    """The entry that a JSON value has. Refused, in a line with the file's path and the value's
    place there, from 1, if the value is no object of texts, has an unknown key, lacks `cause` or
    `why`, or has an empty one, or an `until` that is no date. A missing `lost`, `kept` or `until`
    counts as empty."""
    name = f'--accept {path}: entry {place}'
    if not isinstance(value, dict) or not all(isinstance(text, str) for text in value.values()):
        raise Refused(f'{name} is no object of texts')
    unknown_keys = [key for key in value if key not in AcceptedFailure._fields]
    if unknown_keys:
        raise Refused(f'{name} has an unknown key: {unknown_keys[0]}')
    for key in ('cause', 'why'):
        if not value.get(key):
            raise Refused(f'{name} does not say its {key}')
    return AcceptedFailure(
        value['cause'],
        value.get('lost', ''),
        value.get('kept', ''),
        value['why'],
        parse_date(name, value.get('until', '')),
    )


def parse_date(name: str, text: str) -> Optional[datetime.date]:
    """The date of a text such as 2027-01-31; None for an empty text. Refused for any other text, in
    a line that begins with the name of the entry."""
    if not text:
        return None
    try:
        date: Optional[datetime.date] = datetime.date.fromisoformat(text)
    except ValueError:
        date = None
    # Since Python 3.11 other forms are dates too, such as 20270131.
    if date is None or date.isoformat() != text:
        raise Refused(f'{name}: until is no date such as 2027-01-31: {text}')
    return date


def operation_text(line: Optional[TraceLine]) -> str:
    """The operation of a line of the trace in words, without the line's number and details, such as
    `rename /new to /old`; only `say` for an acknowledged line. An empty text for None."""
    if line is None:
        return ''
    target = f'to {line.target}' if line.target else ''
    return ' '.join(filter(None, (line.word, line.path, target)))
