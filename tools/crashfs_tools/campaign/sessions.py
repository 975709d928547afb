"""Records one session and checks it, by crashfs-record and crashfs-check."""

from __future__ import annotations

import json
import os
import shutil
import subprocess
import sys
from dataclasses import dataclass, field
from pathlib import Path
from typing import Any, Dict, List, Optional, Sequence, Tuple

from crashfs_tools.common.command import (
    NONE_FAILS,
    SOME_FAIL,
    TRACE_NOTED,
    TRACE_WHOLE,
    last_line,
)
from crashfs_tools.common.removal import remove_tree

from .options import CampaignOptions

TOOLS = Path(__file__).resolve().parents[2]
SEED = 'CRASHFS_SEED'
# The results of states in the check's JSON.
BAD, NO_ANSWER = 'bad', 'no answer'
NO_ENTRY = 'a failure has no entry in its report, as one of --nested'
# A command that is asked to end, and hasn't after so long, is asked again.
ENDING_SECONDS = 5.0
# The versions of the check's JSON that are read.
REPORTS = (3, 4)


@dataclass
class Failure:
    """An entry of a check's report: its cause and sentences, the number of an example, and how many
    different states fail in this way. The file of a campaign has the names of the fields."""

    cause: str
    text: List[str]
    example: int
    states: int


@dataclass
class SessionVerdict:
    """What the check of a session found: its failures, and why there is no whole verdict; an empty
    text if there is one."""

    failures: List[Failure] = field(default_factory=list)
    fault: str = ''


class Sessions:
    """Makes traces in a folder, and checks them there. trace is the file of the last recorded
    session, which the next recording replaces."""

    def __init__(self, options: CampaignOptions, folder: Path) -> None:
        """Nothing is made yet; the folder must exist when record() or check() is called."""
        self.options = options
        self.folder = folder
        self.trace = folder / 'session.trace'

    def record(self, seed: int) -> str:
        """Records SESSION with a seed, in a new store: empty, or a copy of --start. Returns why
        there is no trace that can be checked; an empty text if there is one. An incomplete trace
        can't be checked. OSError if the store can't be made, as when the last one is in the way, or
        as run_tool()."""
        store = self.folder / 'store'
        remove_tree(str(store))
        if self.options.start is None:
            store.mkdir()
        else:
            shutil.copytree(self.options.start, store, symlinks=True)
        words = [*self.options.record, str(store), str(self.trace), '--', *self.options.session]
        status, error_text = self.run_tool('crashfs-record', words, {SEED: str(seed)})
        is_whole = status in (TRACE_WHOLE, TRACE_NOTED)
        return '' if is_whole else fault_text('crashfs-record', status, error_text)

    def check(self, trace: Path, page: Optional[Path] = None) -> SessionVerdict:
        """Checks a trace with RECOVERY, and returns what verdict_of() makes of the report, or of
        none if the check wrote none. If `page` is given, the check writes the report to that file
        as a page too. Raises what run_tool(), read_report() and verdict_of() do; OSError if the
        last report can't be removed."""
        report = self.folder / 'report.json'
        if report.exists():
            report.unlink()
        outputs = ['--json', str(report), *([] if page is None else ['--html', str(page)])]
        words = [*outputs, *self.options.check, str(trace), '--']
        status, error_text = self.run_tool('crashfs-check', [*words, *self.options.recovery], {})
        fields = read_report(report) if report.exists() else {'windows': [], 'groups': []}
        return verdict_of(status, error_text, fields)

    def run_tool(
        self, tool: str, words: Sequence[str], variables: Dict[str, str]
    ) -> Tuple[int, str]:
        """Runs crashfs-record or crashfs-check, as `tool` says, to its end, without a time limit,
        with these variables added to its environment. Returns its status and what it printed on
        standard error; other output is dropped. If an exception comes meanwhile, such as a Stopped,
        end_tool() ends the command. OSError if it can't be started."""
        child = subprocess.Popen(
            [sys.executable, str(TOOLS / tool), *words],
            env={**os.environ, **variables},
            stdin=subprocess.DEVNULL,
            stdout=subprocess.DEVNULL,
            stderr=subprocess.PIPE,
            text=True,
            errors='backslashreplace',
        )
        try:
            _, error_text = child.communicate()
        except BaseException:
            end_tool(child)
            raise
        return child.returncode, error_text


def end_tool(child: subprocess.Popen[str]) -> None:
    """Terminates crashfs-record or crashfs-check, and waits for its end. If that takes more than
    ENDING_SECONDS, terminates it again, on which crashfs-record kills SESSION, and waits without
    limit."""
    child.terminate()
    try:
        child.communicate(timeout=ENDING_SECONDS)
    except subprocess.TimeoutExpired:
        child.terminate()
        child.communicate()


def read_report(report: Path) -> Dict[str, Any]:
    """The JSON of a report of crashfs-check. OSError if it can't be read, or if its version isn't
    one of REPORTS; ValueError if it is no JSON, RecursionError if it is nested too deeply, and
    AttributeError if it is no object."""
    fields: Dict[str, Any] = json.loads(report.read_text('utf-8', 'surrogateescape'))
    if fields.get('crashfs-check') not in REPORTS:
        raise OSError(f'{report} is a report of another version')
    return fields


def verdict_of(status: int, error_text: str, fields: Dict[str, Any]) -> SessionVerdict:
    """What a check found, by its status, what it printed on standard error, and the JSON of its
    report. The failures are those in the report; of a check that ended early it has those found by
    then. There is a fault unless the status is NONE_FAILS, or is SOME_FAIL and there are failures.
    KeyError if the report lacks a key."""
    unanswered = unanswered_causes(fields)
    failures = failures_in(fields, unanswered)
    if status == NONE_FAILS or status == SOME_FAIL and failures:
        return SessionVerdict(failures)
    if status == SOME_FAIL:
        reason = NO_ENTRY
    elif unanswered:
        reason = f'no answer: {unanswered[0]}'
    else:
        reason = error_text
    return SessionVerdict(failures, fault_text('crashfs-check', status, reason))


def unanswered_causes(fields: Dict[str, Any]) -> List[str]:
    """Why states of a report gave no answer: each cause once, in the order of the states, without
    causes that failing states have too. KeyError if the report lacks a key."""
    outcomes = [outcome for window in fields['windows'] for outcome in window['outcomes'].values()]
    failing_causes = {cause for result, cause, _ in outcomes if result == BAD}
    causes = [cause for result, cause, _ in outcomes if result == NO_ANSWER]
    return [cause for cause in dict.fromkeys(causes) if cause not in failing_causes]


def failures_in(fields: Dict[str, Any], unanswered: List[str]) -> List[Failure]:
    """The entries of a report as failures, without accepted ones, and without those whose cause is
    among `unanswered`. KeyError if the report lacks a key."""
    return [
        Failure(entry['cause'], entry['text'], entry['example'], entry['different'])
        for entry in fields['groups']
        if entry.get('accepted') is None and entry['cause'] not in unanswered
    ]


def fault_text(tool: str, status: int, error_text: str) -> str:
    """Why a command gave no result: its name, its status, and the last line of error_text, such as
    what it printed on standard error; `it printed nothing` if all of error_text is blank."""
    return f'{tool}: status {status}: {last_line(error_text) or "it printed nothing"}'
