"""The command tools/test."""

from __future__ import annotations

import argparse
import os
import shutil
import sys
from functools import partial
from typing import Dict, Iterator, List

from building.memory import GIGABYTE, available_memory
from crashfs_tools.common.program import Crashfs

from .at_once import Part, most_parts_at_once, run_parts
from .crates import GATE_CRATES, crates_with_tests, run_crate_tests
from .examples import run_examples, run_scripts, example_scripts
from .outcome import Outcome
from .tools_tests import run_tools_tests

NEEDS_PROGRAM = 'the replies to its scripts need `crashfs` (tools/build)'
DESCRIPTION = """\
Runs all tests that need no proofs: those of the tools, the examples, and with the toolchain (`rt`
on PATH) those of each crate by `rt try --test`, as many crates at once as there are processors and
memory for. It prints a line for each part, then what it could not run, and last the line
`N passed, M failed`. Status 0 means that no test failed."""


def parts_with_rt() -> Dict[str, Part]:
    """The parts that need the toolchain, by name: the tests of each of crates_with_tests(), without
    GATE_CRATES, and the scripts of the examples if Crashfs.find() finds no program. Nothing is run.
    OSError as crates_with_tests()."""
    parts: Dict[str, Part] = {
        crate.name: partial(run_crate_tests, crate)
        for crate in crates_with_tests()
        if crate.name not in GATE_CRATES
    }
    if Crashfs.find(None) is None:
        for files, names in example_scripts().items():
            parts[f'scripts over {files.trace}'] = partial(run_scripts, files, names)
    return parts


def not_run_lines_without_rt() -> List[str]:
    """A line, with the reason, for each thing that isn't run without the toolchain: the tests of
    all crates, and the scripts of the examples if Crashfs.find() finds no program. OSError as
    crates_with_tests()."""
    test_count = sum(crate.test_count for crate in crates_with_tests())
    lines = [f'the {test_count} tests of the crates: they need `rt`, the command of the toolchain']
    if Crashfs.find(None) is None:
        script_count = sum(map(len, example_scripts().values()))
        lines.append(f'{script_count} examples: {NEEDS_PROGRAM}')
    return lines


def not_run_lines_with_rt() -> List[str]:
    """A line, with the reason, for each of GATE_CRATES: only the gate can run its tests. KeyError
    if such a crate has no tests; OSError as crates_with_tests()."""
    counts = {crate.name: crate.test_count for crate in crates_with_tests()}
    return [f'the {counts[name]} tests of {name}: {reason}' for name, reason in GATE_CRATES.items()]


def run_all_parts(*, has_rt: bool, count: int) -> Iterator[Outcome]:
    """Runs all parts, and yields the outcome of each as it ends. The tools' tests and the examples
    come first, side by side, since they take the least time; then, with `rt`, the parts of
    parts_with_rt(), `count` at once. These aren't run if one of the first two raises an exception,
    which ends the iterator, as in run_parts()."""
    yield from run_parts({'tools': run_tools_tests, 'examples': run_examples}, 2)
    if has_rt:
        yield from run_parts(parts_with_rt(), count)


def print_outcome(outcome: Outcome) -> None:
    """Prints an outcome as a line, and then on standard error what is printed of failed tests."""
    print(outcome.summary_line(), flush=True)
    if outcome.output:
        print(outcome.output.rstrip('\n'), file=sys.stderr, flush=True)


def main() -> int:
    """Runs tools/test, prints the outcome of each part, and returns the status: 1 if a test failed,
    whatever is not run. --jobs below 1 counts as 1. A wrong word and --help end the program
    (SystemExit). What a part raises is raised here, before the counts are printed; OSError without
    /proc."""
    parser = argparse.ArgumentParser(
        description=DESCRIPTION, formatter_class=argparse.RawDescriptionHelpFormatter
    )
    default = most_parts_at_once(os.cpu_count() or 1, available_memory() / GIGABYTE)
    parser.add_argument(
        '--jobs',
        type=int,
        default=default,
        metavar='N',
        help=f'how many crates are tested at once ({default} here)',
    )
    options = parser.parse_args()
    has_rt = shutil.which('rt') is not None
    not_run = not_run_lines_with_rt() if has_rt else not_run_lines_without_rt()
    passed = failed = 0
    for outcome in run_all_parts(has_rt=has_rt, count=max(1, options.jobs)):
        print_outcome(outcome)
        passed, failed = passed + outcome.passed, failed + outcome.failed
        not_run += outcome.not_run
    not_run_lines = [f'not run: {line}' for line in not_run]
    print(*not_run_lines, f'{passed} passed, {failed} failed', sep='\n')
    return 1 if failed else 0
