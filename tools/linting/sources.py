"""The files that the linters read."""

from __future__ import annotations

from pathlib import Path
from typing import List

TOP = Path(__file__).resolve().parent.parent.parent
TOOLS = TOP / 'tools'
CRATES = TOP / 'crates'
EXAMPLES = TOP / 'examples'
# The folders of a crate that the prover reads.
CRATE_FOLDERS = ('src', 'specs', 'proofs')


def is_python(path: Path) -> bool:
    """Whether a path is a module of Python, by its suffix, or a script of Python: a file without a
    suffix whose first line begins with `#!` and has `python`. OSError if a file without a suffix
    can't be read."""
    if path.suffix == '.py':
        return True
    if path.suffix or not path.is_file():
        return False
    with path.open('rb') as file:
        line = file.readline()
    return line.startswith(b'#!') and b'python' in line


def python_files() -> List[Path]:
    """The modules of tools/ and of the examples, and the scripts in tools/ itself; sorted. The
    tests are among them."""
    paths = {*TOOLS.iterdir(), *TOOLS.rglob('*.py'), *EXAMPLES.rglob('*.py')}
    return sorted(filter(is_python, paths))


def is_test(path: Path) -> bool:
    """Whether a file is one of the tools' tests."""
    return TOOLS / 'tests' in path.parents


def program_files() -> List[Path]:
    """The commands of tools/ and their modules, without the tests."""
    return [path for path in python_files() if TOOLS in path.parents and not is_test(path)]


def test_files() -> List[Path]:
    """The modules of the tools' tests."""
    return [path for path in python_files() if is_test(path)]


def crate_sources() -> List[Path]:
    """The files of all crates that the prover reads, .rt and .antt, by folder of CRATE_FOLDERS, and
    sorted in each."""
    return [
        path
        for folder in CRATE_FOLDERS
        for path in sorted(CRATES.glob(f'*/{folder}/**/*'))
        if path.suffix in ('.rt', '.antt')
    ]


def path_from_top(path: Path) -> str:
    """The path of a file of the repository, from its top; ValueError for another file."""
    return str(path.relative_to(TOP))
