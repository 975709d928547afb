"""The crates with tests, and one run of the tests of a crate without any proof."""

from __future__ import annotations

import re
from pathlib import Path
from typing import Dict, List, NamedTuple

from .commands import run_command
from .outcome import Outcome

TOP = Path(__file__).resolve().parents[2]
CRATES = TOP / 'crates'
TEST = re.compile(r'^\s*#\[test\]', re.M)
RESULT = re.compile(r'^test (\S+) \.\.\. (\w+)$', re.M)
# These tests take all memory until malloc refuses some; `rt try` has AddressSanitizer's malloc.
REFUSED = 'they let allocations fail, which only .ci/run can do'
# How long a test may take: so long only if the machine has much other work.
SECONDS = '600'
# What only the gate runs: crates, and single tests of other crates, each with the reason.
GATE_CRATES = {'cs_growth_tests': REFUSED}
GATE_TESTS = {
    'cs_run_tests': {'tests::endings::refused_removal_of_the_largest_file_leaves_it': REFUSED},
}


class Crate(NamedTuple):
    """A crate with tests: how many tests it has, and how many lines its sources have. gate_tests
    has the tests that only the gate runs, by their whole names, with the reason of each."""

    name: str
    test_count: int
    line_count: int
    gate_tests: Dict[str, str]


def crates_with_tests() -> List[Crate]:
    """The crates that have tests, also those of GATE_CRATES; those with most lines come first,
    since they take longest. A test of GATE_TESTS that isn't in the source is dropped. OSError if a
    source can't be read."""
    crates = []
    for folder in sorted(CRATES.iterdir()):
        text = ''.join(path.read_text('utf-8') for path in sorted((folder / 'src').rglob('*.rt')))
        test_count = len(TEST.findall(text))
        if test_count:
            gate_tests = {
                test: reason
                for test, reason in GATE_TESTS.get(folder.name, {}).items()
                if function_head(test) in text
            }
            crates.append(Crate(folder.name, test_count, text.count('\n'), gate_tests))
    return sorted(crates, key=lambda crate: -crate.line_count)


def function_head(test: str) -> str:
    """How a test's function begins in the source, from the test's whole name."""
    return f'fn {test.rpartition("::")[2]}('


def outcome_of_crate(crate: Crate, printed: str) -> Outcome:
    """The outcome of a crate's tests, from what `rt try --test` printed. A test that isn't reported
    as passed counts as failed, or, if only the gate runs it, as not run. If a test failed, the
    outcome's output is what was printed, without the lines of passed tests; else it is empty."""
    results = dict(RESULT.findall(printed))
    passed = sum(word == 'ok' for word in results.values())
    not_run = [
        f'{name} of {crate.name}: {reason}'
        for name, reason in crate.gate_tests.items()
        if results.get(name) != 'ok'
    ]
    failed = max(0, crate.test_count - passed - len(not_run))
    heading = f'{crate.name}: results of {len(results)} of {crate.test_count} tests\n'
    output = heading + without_passed(printed) if failed else ''
    return Outcome(crate.name, passed, failed, not_run=not_run, output=output)


def without_passed(printed: str) -> str:
    """What `rt` printed, without the lines of passed tests."""
    return '\n'.join(line for line in printed.splitlines() if not line.endswith(' ... ok'))


def run_crate_tests(crate: Crate) -> Outcome:
    """Runs the tests of a crate by `rt`, without any proof, and returns their outcome. The status
    of `rt` isn't looked at, since a test that only the gate runs may fail: outcome_of_crate() reads
    what was printed. OSError if there is no `rt`."""
    words = ['rt', 'try', '--test', '--seconds', SECONDS]
    return outcome_of_crate(crate, run_command(words, CRATES / crate.name).printed)
