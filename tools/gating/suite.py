"""Runs the tools' tests for the gate: `python3 -m gating.suite`, in the folder tools/.

It runs what `python3 -m unittest discover` runs, each module in a process of its own, several at
once. A module that fails beside others is run again, alone, and only that counts, since some tests
wait for programs that others may slow down. The last line counts the tests, and the skipped ones by
what they need. With --program a test that is skipped because there is no `crashfs` counts as
failed: the gate has built it. With --quick it runs only a few modules, which start no program.
"""

from __future__ import annotations

import argparse
import os
import sys
from collections import Counter
from concurrent.futures import ThreadPoolExecutor
from pathlib import Path
from typing import Iterator, List, Optional, Sequence

from .modules import TOOLS, ModuleResult, run_here, run_module

# What takes a second or two each, and needs no program.
QUICK = (
    'archive',
    'gate',
    'ignore',
    'inventories',
    'lint',
    'log',
    'order',
    'pages',
    'pairs',
    'rooms',
    'translate',
    'untranslated',
    'output_streams',
)


def modules_to_run(*, is_quick: bool) -> List[str]:
    """The names of the test modules, such as `tests.test_gate`, in alphabetical order; with
    is_quick only the QUICK ones that are there."""
    names = sorted(path.stem for path in (TOOLS / 'tests').glob('test_*.py'))
    quick = {f'test_{name}' for name in QUICK}
    return [f'tests.{name}' for name in names if not is_quick or name in quick]


def count_at_once(processors: int) -> int:
    """How many modules run at once: most tests start programs and wait for them, so one processor
    of four stays free for these."""
    return max(1, processors * 3 // 4)


def run_modules(names: Sequence[str], count: int) -> List[ModuleResult]:
    """Runs modules, `count` at once, and then those that failed once more, one after the other,
    unless `count` is 1. Prints on standard error what each printed. Returns the last result of each
    module, in the order of `names`."""
    results = {result.name: result for result in run_at_once(names, count)}
    if count > 1:
        for name in [name for name, result in results.items() if result.failed]:
            results[name] = run_again(name)
    return list(results.values())


def run_at_once(names: Sequence[str], count: int) -> Iterator[ModuleResult]:
    """Runs modules, `count` at once. Yields their results in the order of `names`, each after what
    the module printed is printed on standard error."""
    with ThreadPoolExecutor(count) as pool:
        for result in pool.map(run_module, names):
            print_output(result)
            yield result


def run_again(name: str) -> ModuleResult:
    """Runs a module that failed beside others alone. Prints on standard error that it does so, and
    then what the module printed. Returns its result."""
    print(f'{name} failed beside others: again, alone', file=sys.stderr, flush=True)
    result = run_module(name)
    print_output(result)
    return result


def print_output(result: ModuleResult) -> None:
    """Prints on standard error, at once, what the tests of a module printed."""
    print(result.output, end='', file=sys.stderr, flush=True)


def skip_reasons(results: Sequence[ModuleResult]) -> List[str]:
    """Why tests of these modules were skipped, a text for each test."""
    return [reason for result in results for reason in result.skips]


def count_skipped_for_program(results: Sequence[ModuleResult]) -> int:
    """How many tests of these modules were skipped because `crashfs` isn't built: their reasons
    have its name."""
    return sum('crashfs' in reason for reason in skip_reasons(results))


def summary_line(results: Sequence[ModuleResult]) -> str:
    """What unittest counted: the tests that ran, skipped ones among them; the failures, one for
    each failed subtest; and the skips, with their reasons, the commonest first."""
    skips = skip_reasons(results)
    run, failed = sum(result.run for result in results), sum(result.failed for result in results)
    line = f'{run} run, {failed} failed, {len(skips)} skipped'
    if skips:
        reasons = Counter(skips).most_common()
        line += f' ({"; ".join(f"{count}: {reason}" for reason, count in reasons)})'
    return line


def has_passed(results: Sequence[ModuleResult]) -> bool:
    """Whether at least one test passed and none failed; skipped ones don't count."""
    has_failed = any(result.failed for result in results)
    return not has_failed and any(result.passed for result in results)


def main(words: Optional[List[str]] = None) -> int:
    """Runs the tests that the words ask for; None means the words of the command line. The tests
    print on standard error; then a line on standard output counts them. Returns 0 if has_passed(),
    else 1; with --program also 1 if tests were skipped because `crashfs` isn't built. With --module
    and --result it only calls run_here(), and returns 0. A wrong word and --help end the program
    (SystemExit)."""
    parser = argparse.ArgumentParser(prog='gating.suite', description=__doc__)
    parser.add_argument('--program', action='store_true', help='crashfs is built')
    parser.add_argument('--quick', action='store_true', help='run a few modules only')
    parser.add_argument('--module', help='run this module alone, for --result')
    parser.add_argument('--result', type=Path, help='the file for the result, as JSON')
    options = parser.parse_args(words)
    if options.module and options.result:
        run_here(options.module, options.result)
        return 0
    names = modules_to_run(is_quick=options.quick)
    results = run_modules(names, count_at_once(os.cpu_count() or 1))
    wrong_skips = count_skipped_for_program(results) if options.program else 0
    fault = f'; {wrong_skips} must not be skipped, as crashfs is built' if wrong_skips else ''
    print(f"tools' tests: {summary_line(results)}{fault}", flush=True)
    return 0 if has_passed(results) and not wrong_skips else 1


if __name__ == '__main__':
    sys.exit(main())
