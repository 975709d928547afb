"""The examples with their expected output: lists of states, and replies to scripts."""

from __future__ import annotations

import re
import shutil
import sys
import tempfile
from pathlib import Path
from typing import Dict, List, NamedTuple

from crashfs_tools.common.program import READING, Crashfs

from .commands import run_command
from .outcome import Outcome

TOP = Path(__file__).resolve().parents[2]
EXAMPLES = TOP / 'examples'
CRATE = TOP / 'crates' / 'crashfs'
# What `rt try --cases` prints of a case: the name of its file, and the output of the program.
CASE = re.compile(r'^== (\S+)\n(.*?)^case=', re.M | re.S)


class ScriptFiles(NamedTuple):
    """The files of examples/ over which scripts are run: a trace, and a file of users."""

    trace: str
    users: str

    def script_command(self) -> List[str]:
        """The words with which the program runs a script over these files."""
        return ['script', '--trace', self.trace, '--users', self.users]


USUAL_FILES = ScriptFiles('start.trace', 'users')
# The files of each script that has others.
OTHER_FILES = {'recovery': ScriptFiles('store.trace', 'store.users')}


def example_lists() -> List[str]:
    """The names of the examples that are lists of states: each has a trace of this name."""
    return sorted(path.stem for path in EXAMPLES.glob('*.list'))


def example_scripts() -> Dict[ScriptFiles, List[str]]:
    """The names of the scripts that are examples, by the files over which they are run: those of
    OTHER_FILES, or else USUAL_FILES."""
    names_by_files: Dict[ScriptFiles, List[str]] = {}
    for path in sorted(EXAMPLES.glob('*.script')):
        names_by_files.setdefault(OTHER_FILES.get(path.stem, USUAL_FILES), []).append(path.stem)
    return names_by_files


def count_example(outcome: Outcome, name: str, printed: str) -> None:
    """Counts an example as passed in an outcome if the file of this name in examples/ has what was
    printed, byte for byte. If not, counts it as failed, and adds the last 2,000 characters of what
    was printed to the outcome's output. OSError if there is no such file."""
    if printed.encode() == (EXAMPLES / name).read_bytes():
        outcome.passed += 1
    else:
        outcome.failed += 1
        outcome.output += f'examples/{name} is not what was printed:\n{printed[-2000:]}\n'


def count_lists(outcome: Outcome, program_words: List[str]) -> None:
    """Runs the lists by a program that these words start, and counts them in an outcome. OSError as
    count_example(), or if the program can't be started."""
    for name in example_lists():
        words = [*program_words, 'list', '--trace', f'{name}.trace', '--holes']
        count_example(outcome, f'{name}.list', run_command(words, EXAMPLES).printed)


def count_scripts(outcome: Outcome, program_words: List[str]) -> None:
    """Runs each script by a program that these words start, and counts them in an outcome. OSError
    as count_lists()."""
    scripts = [(name, files) for files, names in example_scripts().items() for name in names]
    for name, files in scripts:
        words = [*program_words, *files.script_command()]
        ended = run_command(words, EXAMPLES, (EXAMPLES / f'{name}.script').read_bytes())
        count_example(outcome, f'{name}.replies', ended.printed)


def run_examples() -> Outcome:
    """Runs the examples by the program, if Crashfs.find() finds one, and returns their outcome.
    Without it only the lists are run, by the second reading: the scripts are for run_scripts().
    OSError if an example's file of expected output is missing."""
    outcome, program = Outcome('examples'), Crashfs.find(None)
    program_words = [program.path] if program else [sys.executable, '-S', READING]
    count_lists(outcome, program_words)
    if program:
        count_scripts(outcome, program_words)
    return outcome


def run_by_toolchain(files: ScriptFiles, names: List[str]) -> str:
    """Runs scripts over these files by a program that the toolchain compiles without any proof.
    Returns what `rt` printed, in which CASE finds what the program printed for each script. OSError
    if there is no `rt`, or no such script."""
    with tempfile.TemporaryDirectory(prefix='crashfs-test-') as folder:
        for name in names:
            shutil.copy(EXAMPLES / f'{name}.script', folder)
        data_words = [word for name in files for word in ('--data', f'{name}={EXAMPLES / name}')]
        words = ['rt', 'try', '--cases', folder, *data_words, '--', *files.script_command()]
        return run_command(words, CRATE).printed


def run_scripts(files: ScriptFiles, names: List[str]) -> Outcome:
    """Runs scripts over these files as run_by_toolchain() does, and returns their outcome. A script
    of which nothing is printed fails; the outcome's output is then the end of all that was printed.
    OSError as run_by_toolchain(), or if a file of expected output is missing."""
    outcome = Outcome(f'scripts over {files.trace}')
    printed = run_by_toolchain(files, names)
    replies = dict(CASE.findall(printed))
    for name in names:
        count_example(outcome, f'{name}.replies', replies.get(f'{name}.script', printed))
    return outcome
