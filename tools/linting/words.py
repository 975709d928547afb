"""Words that readers stumbled over do not come back: in pages, in what the programs print, in the
documentation of Python and in its names."""

from __future__ import annotations

import ast
import re
from itertools import chain
from pathlib import Path
from typing import Iterator, List, NamedTuple, Tuple

from inventory.pages import BEGIN, END

from .retired import ALLOWED, RETIRED, RETIRED_NAMES
from .sources import CRATES, EXAMPLES, TOP, path_from_top, program_files

# It has the retired words themselves.
TABLES = 'tools/linting/retired.py'

# What finds each retired word, with what to write.
PATTERNS = {
    re.compile(rf'\b(?:{word})\b', re.IGNORECASE): better for word, better in RETIRED.items()
}
MADE_PART = re.compile(f'{re.escape(BEGIN)}.*?{re.escape(END)}', re.DOTALL)
# The examples of these kinds print something, or are what was printed.
EXAMPLES_PRINT = ('.py', '.report', '.sh', '.sql')
# The place before the capital that begins a further word of a class name.
CAPITAL_IN_NAME = re.compile(r'(?<=[a-z0-9])(?=[A-Z])|(?<=[A-Z])(?=[A-Z][a-z])')
TEXT_OF_RATTLE = re.compile(r'"((?:[^"\\]|\\.)*)"', re.DOTALL)


class Line(NamedTuple):
    """A line that a person may read: its file below the repository, its number and its text."""

    file: str
    number: int
    text: str


def numbered_lines(path: Path, text: str, first_number: int = 1) -> Iterator[Line]:
    """The lines of a text of a file, as str.splitlines() divides it. first_number is the number of
    the text's first line in the file. ValueError if the file isn't of the repository."""
    for number, line in enumerate(text.splitlines(), first_number):
        yield Line(path_from_top(path), number, line)


def without_made_parts(page: str) -> str:
    """A page without the parts between BEGIN and END, which are made from the sources. Empty lines
    are in their place, so each other line keeps its number."""
    return MADE_PART.sub(lambda part: '\n' * part[0].count('\n'), page)


def pages_to_read() -> List[Path]:
    """The pages whose words are checked: all pages, the manual pages, and the examples that print
    something or were printed."""
    pages = [TOP / name for name in ('README.md', 'CHANGELOG.md', 'SECURITY.md')]
    pages += sorted((TOP / 'docs').rglob('*.md')) + sorted((TOP / 'docs' / 'man').iterdir())
    pages += sorted((TOP / 'helpers').glob('*/README.md'))
    return [*pages, *sorted(path for path in EXAMPLES.rglob('*') if path.suffix in EXAMPLES_PRINT)]


def lines_of_pages() -> Iterator[Line]:
    """The lines of pages_to_read(), but not of made parts. OSError if README, CHANGELOG, SECURITY
    or docs/man isn't there, UnicodeDecodeError if a file isn't UTF-8."""
    for page in pages_to_read():
        yield from numbered_lines(page, without_made_parts(page.read_text('utf-8')))


def texts_in_python(source: str) -> List[Tuple[int, str]]:
    """All texts of a Python source, also its documentation, each after the number of its first
    line. Each fixed part of an f-string is a text. SyntaxError if the source isn't Python."""
    return [
        (node.lineno, node.value)
        for node in ast.walk(ast.parse(source))
        if isinstance(node, ast.Constant) and isinstance(node.value, str)
    ]


def names_in_python(source: str) -> Iterator[Tuple[int, str]]:
    """The names that a Python source gives: to classes, functions, parameters, variables and
    attributes, each after the number of its line. Names of imports and of caught exceptions aren't
    among them. SyntaxError if the source isn't Python."""
    for node in ast.walk(ast.parse(source)):
        if isinstance(node, (ast.ClassDef, ast.FunctionDef, ast.AsyncFunctionDef)):
            yield node.lineno, node.name
        elif isinstance(node, ast.arg):
            yield node.lineno, node.arg
        elif isinstance(node, ast.Name) and isinstance(node.ctx, ast.Store):
            yield node.lineno, node.id
        elif isinstance(node, ast.Attribute) and isinstance(node.ctx, ast.Store):
            yield node.lineno, node.attr


def texts_in_rattle(source: str) -> List[Tuple[int, str]]:
    """The texts in double quotes of a Rattle source, each after the number of its first line. Those
    in comment lines are left out; those in comments after code aren't."""
    code = re.sub(r'^[ \t]*//.*$', '', source, flags=re.MULTILINE)
    return [
        (code.count('\n', 0, text.start()) + 1, text[1]) for text in TEXT_OF_RATTLE.finditer(code)
    ]


def may_print(path: Path) -> bool:
    """Whether a file of a crate may print what a user sees: it is no test, and not of a crate of
    tests. ValueError if it isn't below crates/."""
    parts = path.relative_to(CRATES).parts
    is_test_crate = parts[0].endswith('_tests') or parts[0].startswith('cs_test_')
    return not is_test_crate and 'tests' not in parts and path.stem != 'tests'


def programs_to_read() -> List[Path]:
    """The modules and commands of tools/ whose words are checked: all but the tests, and the table
    of retired words itself."""
    return [path for path in program_files() if path_from_top(path) != TABLES]


def lines_of_texts(path: Path, texts: List[Tuple[int, str]]) -> Iterator[Line]:
    """The lines of texts of a file, each of which is after the number of its first line. ValueError
    as numbered_lines()."""
    for number, text in texts:
        yield from numbered_lines(path, text, number)


def lines_of_tools() -> Iterator[Line]:
    """The lines of all texts of programs_to_read(), documentation too; comments aren't read.
    SyntaxError if a file isn't Python."""
    for path in programs_to_read():
        yield from lines_of_texts(path, texts_in_python(path.read_text('utf-8')))


def lines_of_crates() -> Iterator[Line]:
    """The lines of all texts of the crates' files that may_print() accepts; comment lines aren't
    read. UnicodeDecodeError if a file isn't UTF-8."""
    for path in sorted(filter(may_print, CRATES.glob('*/src/**/*.rt'))):
        yield from lines_of_texts(path, texts_in_rattle(path.read_text('utf-8')))


def all_lines() -> Iterator[Line]:
    """All lines in which words are checked: lines_of_pages(), lines_of_tools() and
    lines_of_crates(). Errors as in these three."""
    return chain(lines_of_pages(), lines_of_tools(), lines_of_crates())


def names_of_tools() -> Iterator[Line]:
    """The names of names_in_python() for programs_to_read(), each as the text of a line.
    SyntaxError if a file isn't Python."""
    return (
        Line(path_from_top(path), number, name)
        for path in programs_to_read()
        for number, name in names_in_python(path.read_text('utf-8'))
    )


def is_allowed_by(line: Line, file: str, text: str) -> bool:
    """Whether the entry of ALLOWED with this file and text is for a line: the line is in the file
    and has the text."""
    return line.file == file and text in line.text


def may_have_retired_words(line: Line) -> bool:
    """Whether a line may have retired words: ALLOWED has the line's file with a text that is in the
    line."""
    return any(is_allowed_by(line, file, text) for file, text in ALLOWED)


def without_allowed(lines: List[Line]) -> List[Line]:
    """The lines that may_have_retired_words() doesn't accept."""
    return [line for line in lines if not may_have_retired_words(line)]


def word_faults(line: Line) -> List[str]:
    """A sentence for each retired word of a line, with what to write. ALLOWED isn't looked at."""
    return [
        f'{line.file}:{line.number}: "{word[0]}": {better}'
        for pattern, better in PATTERNS.items()
        for word in pattern.finditer(line.text)
    ]


def name_faults(line: Line) -> List[str]:
    """A sentence for each retired word of a name, which is the text of the line. A word must be
    whole: a name is divided at underscores, before a capital that follows a small letter or a
    digit, and before the last of several capitals if a small letter follows it, so that IOError has
    `io` and `error`. ALLOWED isn't looked at."""
    underscored_name = f'_{CAPITAL_IN_NAME.sub("_", line.text).strip("_").lower()}_'
    return [
        f'{line.file}:{line.number}: {line.text}: "{word}": {better}'
        for word, better in RETIRED_NAMES.items()
        if f'_{word}_' in underscored_name
    ]


def unused_allowance_faults(lines: List[Line]) -> List[str]:
    """A sentence for each entry of ALLOWED whose text is in no line of its file any more. `lines`
    must have those of all_lines() and names_of_tools()."""
    return [
        f'{file}: "{text}" is allowed, and no longer there'
        for file, text in ALLOWED
        if not any(is_allowed_by(line, file, text) for line in lines)
    ]


def retired_word_faults() -> List[str]:
    """A sentence for each retired word in the pages, in what is printed, and in documentation and
    names of Python, except in lines that may_have_retired_words() accepts; and for each entry of
    ALLOWED that nothing needs. Errors as all_lines()."""
    lines, names = list(all_lines()), list(names_of_tools())
    faults = [fault for line in without_allowed(lines) for fault in word_faults(line)]
    faults += [fault for name in without_allowed(names) for fault in name_faults(name)]
    return [*dict.fromkeys(faults), *unused_allowance_faults([*lines, *names])]
