"""A module of tests that runs in a process of its own, and its result."""

from __future__ import annotations

import faulthandler
import json
import signal
import subprocess
import sys
import tempfile
import unittest
from dataclasses import asdict, dataclass, field
from pathlib import Path
from typing import List

TOOLS = Path(__file__).resolve().parent.parent
# How long the tests of a module may take. A test gives up a command after 10 minutes; what waits
# longer hangs.
MODULE_SECONDS = 1800.0


class PassCounter(unittest.TextTestResult):
    """A result that also counts the tests that passed: no part of them failed or was skipped."""

    passed = 0

    def addSuccess(self, test: unittest.TestCase) -> None:
        """Counts a test that passed."""
        super().addSuccess(test)
        self.passed += 1


@dataclass
class ModuleResult:
    """What came of the tests of a module. A module that can't be imported, or whose process ends
    without a result, has one failed test."""

    name: str
    # Tests that were begun: skipped ones are among them, unless their class was skipped as a whole.
    run: int = 0
    passed: int = 0
    # Each failed subtest counts.
    failed: int = 0
    # Why tests, subtests and classes were skipped, a text for each.
    skips: List[str] = field(default_factory=list)
    # What the tests, and unittest about them, printed.
    output: str = ''


def result_of_tests(name: str, tests: PassCounter) -> ModuleResult:
    """The result, without the output, of a module whose tests ran. An unexpected success counts as
    failed."""
    failed = len(tests.failures) + len(tests.errors) + len(tests.unexpectedSuccesses)
    skips = [reason for _, reason in tests.skipped]
    return ModuleResult(name, tests.testsRun, tests.passed, failed, skips)


def run_here(name: str, result_path: Path) -> None:
    """Runs a module in this process and writes its result, without the output, to a file, as JSON,
    also if a test fails or the module can't be imported. At SIGABRT the process ends without a
    result, and prints on standard error what each of its threads was doing. OSError if the file
    can't be written. The folder tools/ must be on Python's path."""
    # No timer of faulthandler: a process that a test forks could not start one of its own.
    faulthandler.enable()
    tests = unittest.defaultTestLoader.loadTestsFromName(name)
    counted = unittest.TextTestRunner(resultclass=PassCounter).run(tests)
    assert isinstance(counted, PassCounter)
    result = result_of_tests(name, counted)
    result_path.write_text(json.dumps(asdict(result)), encoding='utf-8')


def wait_or_abort(child: subprocess.Popen[bytes]) -> None:
    """Waits for the end of a process, for which it sends SIGABRT after MODULE_SECONDS."""
    try:
        child.wait(MODULE_SECONDS)
    except subprocess.TimeoutExpired:
        child.send_signal(signal.SIGABRT)
        child.wait()


def run_module(name: str) -> ModuleResult:
    """Runs a module in a new process, which is aborted after MODULE_SECONDS, and returns its
    result. Processes that the tests leave behind are not waited for. OSError if the process can't
    be started, or if no temporary folder can be made."""
    with tempfile.TemporaryDirectory() as folder:
        path, output_path = Path(folder) / 'result', Path(folder) / 'output'
        words = ['--module', name, '--result', str(path)]
        # A file: a pipe would end only with the last process that has it.
        with output_path.open('wb') as output:
            child = subprocess.Popen(
                [sys.executable, '-m', 'gating.suite', *words],
                cwd=TOOLS,
                stdin=subprocess.DEVNULL,
                stdout=output,
                stderr=output,
            )
            wait_or_abort(child)
        try:
            result = ModuleResult(**json.loads(path.read_text('utf-8')))
        except (OSError, ValueError):
            result = ModuleResult(name, failed=1)
        result.output = output_path.read_text('utf-8', 'replace')
    return result
