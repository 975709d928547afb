"""The plugin for pytest: the fixture `crash_states`, and the option `--crash-states`.

    def test_crash_states(crash_states):
        crash_states(session, recovery)

Each entry of the report is one failure. docs/how-to/testing.md explains it."""

from __future__ import annotations

from pathlib import Path
from typing import Any, Callable, Iterator, List, NoReturn, Optional, Sequence, Union

import pytest

from crashfs_tools.api.checks import PathRecovery, check
from crashfs_tools.api.recordings import PathSession, record
from crashfs_tools.api.reports import Entry, PathLike, Report
from crashfs_tools.common.command import Refused

# The failures after the first one, which is that of the test itself.
OTHERS = pytest.StashKey[List[str]]()


def pytest_addoption(parser: pytest.Parser) -> None:
    """The hook by which pytest asks for options: adds --crash-states and --crash-accept."""
    group = parser.getgroup('crash states (crashfs)')
    group.addoption(
        '--crash-states',
        action='store_true',
        help='run the tests that have the fixture crash_states; else they are skipped',
    )
    group.addoption(
        '--crash-accept',
        metavar='FILE',
        help='a JSON list of known failures of these tests, as crashfs-check --accept takes it',
    )


class CrashStates:
    """What the fixture gives a test, which calls it once: it records a session, and runs a recovery
    in its crash states."""

    def __init__(self, item: pytest.Item, folder: Path) -> None:
        """`item` is the test, and folder its tmp_path, which gets the recorded directory and the
        trace. Nothing is made yet."""
        self.item = item
        self.folder = folder

    def __call__(
        self,
        session: Union[PathSession, Sequence[str]],
        recovery: Union[PathRecovery, Sequence[str]],
        *,
        start: Optional[Callable[[Path], object]] = None,
        ignore: Sequence[str] = (),
        mapped: bool = False,
        block: Optional[int] = None,
        trace_version: Optional[int] = None,
        accept: Optional[PathLike] = None,
        **options: Any,
    ) -> Report:
        """Records the session, runs the recovery in its crash states, and returns the report. The
        test fails with a failure for each entry that isn't accepted; also if a state has no answer,
        if the trace isn't complete, or if record() or check() refuses something. Exceptions of
        start, and others of these, are passed on.

        start is called with the directory before the session begins. ignore, mapped, block and
        trace_version are options of crashfs_tools.record, all others of crashfs_tools.check; accept
        takes the place of --crash-accept. A second call in the same test is a FileExistsError."""
        store, trace = self.make_store(start), self.folder / 'session.trace'
        try:
            recording = record(
                store,
                session,
                trace,
                ignore=ignore,
                mapped=mapped,
                block=block,
                trace_version=trace_version,
            )
            if not recording.is_complete:
                fail('the trace is not complete:', *recording.messages)
            accept = accept or self.item.config.getoption('--crash-accept')
            report = check(trace, recovery, accept=accept, **options)
        except Refused as refused:
            fail(str(refused))
        self.fail_if_bad(report, trace)
        return report

    def make_store(self, start: Optional[Callable[[Path], object]]) -> Path:
        """Makes the directory of the session in the test's tmp_path, where it stays as the trace
        does, calls start with it, if there is one, and returns it. FileExistsError if it exists."""
        store = self.folder / 'store'
        store.mkdir()
        if start is not None:
            start(store)
        return store

    def fail_if_bad(self, report: Report, trace: Path) -> None:
        """Fails the test with the first failure of the report; the texts of the others stay in the
        test's stash, for pytest_runtest_protocol. If there is no failure but the status isn't 0, as
        for a state that wasn't tried or a second crash, fails it with the whole report. Returns
        only for status 0."""
        texts = [failure_text(entry, trace) for entry in report.failures]
        if texts:
            self.item.stash[OTHERS] = texts[1:]
            fail(texts[0])
        if report.status != 0:
            fail(str(report))


def failure_text(entry: Entry, trace: Path) -> str:
    """An entry as the text of a test's failure, with the number of its example and the trace's
    path."""
    return f'{entry}\n  state {entry.example} of {trace}'


def fail(*lines: str) -> NoReturn:
    """Fails the test with some lines, by an exception of pytest."""
    raise pytest.fail.Exception('\n'.join(lines), pytrace=False)


@pytest.fixture
def crash_states(request: pytest.FixtureRequest, tmp_path: Path) -> CrashStates:
    """The fixture: the test calls it with a session and a recovery, each a function or a command
    (CrashStates). Without --crash-states the test is skipped."""
    if not request.config.getoption('--crash-states'):
        pytest.skip('needs --crash-states')
    return CrashStates(request.node, tmp_path)


@pytest.hookimpl(hookwrapper=True)
def pytest_runtest_protocol(item: pytest.Item) -> Iterator[None]:
    """After a test has run, reports each further failure that CrashStates kept as a failed test of
    its own, numbered from 2: for pytest a test has only one failure."""
    yield
    others = item.stash[OTHERS] if OTHERS in item.stash else []
    for number, text in enumerate(others, 2):
        item.ihook.pytest_runtest_logreport(report=failure_report(item, number, text))


def failure_report(item: pytest.Item, number: int, text: str) -> pytest.TestReport:
    """The report of a further failure of a test, as if another test at the same place had failed.
    The name of that test has the number at its end, such as `test_store (2)`."""
    try:
        fail(text)
    except pytest.fail.Exception:
        failure = item.repr_failure(pytest.ExceptionInfo.from_current())
    path, line, name = item.location
    keywords = {item.name: 1}
    location = path, line, f'{name} ({number})'
    return pytest.TestReport(item.nodeid, location, keywords, 'failed', failure, 'call')
