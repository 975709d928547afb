"""Reads the lines of a trace, or only its header, as JSON."""

from __future__ import annotations

import json
from io import StringIO
from typing import Any, Iterable, Iterator, Tuple

from .command import Refused

# What an empty line may have.
BLANKS = ' \t\r\n'


class TraceError(Refused):
    """A text that is no trace, or not one of its version."""


def parse_line(number: int, line: str) -> Any:
    """The JSON value of a line of a trace, of any type. TraceError, with the line's number, if it
    isn't JSON, or is nested too deeply for Python."""
    try:
        return json.loads(line)
    except (ValueError, RecursionError) as error:
        raise TraceError(f'line {number} is no line of a trace ({error})') from error


def parse_lines(lines: Iterable[str]) -> Iterator[Tuple[int, Any]]:
    """The number, from 1, and the JSON value of each line that isn't empty, one by one; the values
    may be of any type. TraceError, after the lines before it, for a line that isn't JSON."""
    for number, line in enumerate(lines, 1):
        if line.strip(BLANKS):
            yield number, parse_line(number, line)


def header_fields(lines: Iterable[str]) -> Any:
    """The JSON value of the first line of a trace that isn't empty, of any type. StopIteration if
    all lines are empty; TraceError, with its number, if the line isn't JSON. No more lines are
    read."""
    _, header = next(parse_lines(lines))
    return header


def trace_version(text: str) -> int:
    """The version in a trace's header, known or not; 0 if there is no header, or if its version is
    no whole number. Only the header is read."""
    try:
        version = header_fields(StringIO(text))['trace']
    except (TraceError, StopIteration, KeyError, TypeError):
        return 0
    return version if isinstance(version, int) else 0


def root_owner(lines: Iterable[str]) -> str:
    """The owner of the root, from the lines of a trace that `crashfs` has accepted. Only the header
    is read."""
    return str(header_fields(lines)['owner'])
