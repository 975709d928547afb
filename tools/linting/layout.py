"""The widths and lengths that CONTRIBUTING sets for the sources."""

from __future__ import annotations

import ast
import re
from pathlib import Path
from typing import Iterator, List

from .sources import CRATES, TOOLS, crate_sources, path_from_top, program_files, python_files

MOST_LINES = 400
MOST_LINES_OF_FUNCTION = 40
CODE_COLUMNS, PROOF_COLUMNS = 100, 140
COMMENT = re.compile(r'^\s*(//|--)')
# Lines of a crate that a program's text, a list of names or a path in an attribute makes long.
MAY_BE_LONG = re.compile(r'"|^\s*((ghost )?use |pub use |#\[tactic)|\\$')
FUNCTION = (ast.FunctionDef, ast.AsyncFunctionDef)


def long_lines(text: str, columns: int) -> List[str]:
    """The lines of the text of a crate's file that have more than this number of columns. A line
    that matches MAY_BE_LONG is left out, unless it is a comment."""
    return [
        line
        for line in text.splitlines()
        if len(line) > columns and (COMMENT.match(line) or not MAY_BE_LONG.search(line))
    ]


def line_count(node: ast.stmt) -> int:
    """How many lines a function or another statement has."""
    return (node.end_lineno or node.lineno) - node.lineno + 1


def is_option_row(node: ast.stmt) -> bool:
    """Whether a statement adds an option to a parser, `parser.add_argument(..)`: it counts as a row
    of a table, not as code."""
    call = node.value if isinstance(node, ast.Expr) else None
    function = call.func if isinstance(call, ast.Call) else None
    return isinstance(function, ast.Attribute) and function.attr == 'add_argument'


def long_function_faults(source: str) -> Iterator[str]:
    """A sentence for each function of a Python source that has more than MOST_LINES_OF_FUNCTION
    lines, not counting is_option_row() statements of its body. The lines of a nested function count
    for both functions. SyntaxError if the source isn't Python."""
    for node in ast.walk(ast.parse(source)):
        if isinstance(node, FUNCTION):
            option_rows = filter(is_option_row, node.body)
            count = line_count(node) - sum(map(line_count, option_rows))
            if count > MOST_LINES_OF_FUNCTION:
                yield f'{node.name} has {count} lines: {MOST_LINES_OF_FUNCTION} at most'


def most_columns(path: Path) -> int:
    """How many columns a line of a crate's file may have: more in proofs and in laws, which are
    proved lemmas that crates above use. ValueError if the file isn't below crates/."""
    is_proof = bool({'proofs', 'Laws'} & set(path.relative_to(CRATES).parts[1:-1]))
    return PROOF_COLUMNS if is_proof else CODE_COLUMNS


def wide_crate_line_faults() -> List[str]:
    """A sentence for each line of a crate's file that long_lines() finds with most_columns().
    UnicodeDecodeError if a file isn't UTF-8."""
    return [
        f'{path_from_top(path)}: longer than {most_columns(path)} columns: {line.strip()}'
        for path in crate_sources()
        for line in long_lines(path.read_text('utf-8'), most_columns(path))
    ]


def wide_python_line_faults() -> List[str]:
    """A sentence for each line of python_files() that has more than CODE_COLUMNS, also if a long
    text is the reason. UnicodeDecodeError if a file isn't UTF-8."""
    return [
        f'{path_from_top(path)}:{number}: longer than {CODE_COLUMNS} columns'
        for path in python_files()
        for number, line in enumerate(path.read_text('utf-8').splitlines(), 1)
        if len(line) > CODE_COLUMNS
    ]


def long_file_faults() -> Iterator[str]:
    """A sentence for each file of crate_sources(), and each module of tools/, tests included, that
    has more than MOST_LINES lines. UnicodeDecodeError if a file isn't UTF-8."""
    for path in [*crate_sources(), *TOOLS.rglob('*.py')]:
        count = len(path.read_text('utf-8').splitlines())
        if count > MOST_LINES:
            yield f'{path_from_top(path)} has {count} lines: {MOST_LINES} at most'


def layout_faults() -> List[str]:
    """A sentence for each line, function and file that is too long. Only functions of Python in
    tools/ are looked at, and none of the tests. SyntaxError as long_function_faults(),
    UnicodeDecodeError if a file isn't UTF-8."""
    function_faults = (
        f'{path_from_top(path)}: {fault}'
        for path in program_files()
        for fault in long_function_faults(path.read_text('utf-8'))
    )
    return [
        *wide_crate_line_faults(),
        *wide_python_line_faults(),
        *function_faults,
        *long_file_faults(),
    ]
