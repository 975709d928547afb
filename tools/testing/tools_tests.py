"""The tests of the commands in tools/."""

from __future__ import annotations

import re
import sys
from pathlib import Path

from .commands import run_command
from .outcome import Outcome

TOP = Path(__file__).resolve().parents[2]
RAN = re.compile(r'^Ran (\d+) tests? in', re.M)
COUNTS = re.compile(r'(?<!expected )\b(failures|errors|skipped|unexpected successes)=(\d+)')
SKIPPED = re.compile(r'^(.*): the tests that need it are skipped$', re.M)


def outcome_of_tools(printed: str, status: int) -> Outcome:
    """The outcome of the tools' tests, from what unittest printed and its status. At least one test
    counts as failed if the status isn't 0, or if no line counts the tests. An unexpected success
    counts as failed, an expected failure as passed; for skipped tests not_run has a line too. Each
    failed or skipped subtest, and a class that is skipped as a whole, counts like a test, so that
    fewer tests may count as passed than did pass. The outcome's output is what was printed if a
    test failed, else empty."""
    count_line = RAN.search(printed)
    last_line = printed.rstrip().rpartition('\n')[2]
    counts = {word: int(count) for word, count in COUNTS.findall(last_line)}
    skipped = counts.pop('skipped', 0)
    failed = sum(counts.values())
    if count_line is None or (status != 0 and failed == 0):
        failed = max(failed, 1)
    passed = max(0, int(count_line[1]) - failed - skipped) if count_line else 0
    outcome = Outcome('tools', passed, failed, skipped, output=printed if failed else '')
    if skipped:
        reasons = '; '.join(sorted(set(SKIPPED.findall(printed))))
        outcome.not_run.append(f'{skipped} tests of the tools: {reasons}')
    return outcome


def run_tools_tests() -> Outcome:
    """Runs all tests of the tools in a new process, and returns their outcome."""
    words = [sys.executable, '-m', 'unittest', 'discover', '-s', 'tools', '-t', 'tools']
    ended = run_command(words, TOP)
    return outcome_of_tools(ended.printed, ended.status)
