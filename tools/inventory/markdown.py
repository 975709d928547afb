"""Tables in Markdown."""

from __future__ import annotations

from typing import Iterable, Iterator, Sequence


def table_cell(text: str) -> str:
    """A text as a cell of a table, which a `|` would end."""
    return text.replace('|', '\\|')


def table_row(cells: Iterable[str]) -> str:
    """The line of a row of a table, with these cells."""
    return f'| {" | ".join(cells)} |'


def table_lines(columns: Sequence[str], rows: Iterable[Iterable[str]]) -> Iterator[str]:
    """The lines of a table: its head, which names the columns, and a line for each row, which has a
    cell for each column. A text that may have a `|` must come through table_cell()."""
    yield table_row(columns)
    yield f'|{"---|" * len(columns)}'
    yield from map(table_row, rows)
