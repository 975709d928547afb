"""The last lines of `.ci/run`: what they say of a gate, and whether a release may rest on it."""

from __future__ import annotations

import re
from dataclasses import dataclass
from typing import Dict, List

# The lines, by the word that each begins with; the last one counts.
FIELDS = ('commit', 'tree', 'toolchain', 'edits', 'lint', "tools' tests", 'status')
COUNTS = re.compile(r'(\d+) passed, (\d+) failed')


@dataclass(frozen=True)
class Verdict:
    """What the last lines of a gate say, as texts. `counts` is the very last line."""

    commit: str
    tree: str
    toolchain: str
    edits: str
    status: str
    counts: str

    def reasons_against(self, commit: str, toolchain: str) -> List[str]:
        """Why a release of this commit and toolchain can't be based on the gate, a clause for each
        reason; empty if it can. A failed test, no passed test, and counts of another form are
        reasons too."""
        counts = COUNTS.fullmatch(self.counts)
        passed, failed = (int(counts[1]), int(counts[2])) if counts else (0, 0)
        checks = [
            (self.commit == commit, f'it is of commit {self.commit}, not of {commit}'),
            (self.tree == 'clean', f'its tree {self.tree}'),
            (self.toolchain == toolchain, f'its toolchain is {self.toolchain}, not {toolchain}'),
            (
                self.edits == 'all',
                f'it tried not all edits, but {self.edits}: give --all-edits',
            ),
            (self.status == '0', f'its status is {self.status}'),
            (passed > 0 and failed == 0, f'it counts {self.counts}'),
        ]
        return [reason for has_passed, reason in checks if not has_passed]


def parse_verdict(log: str) -> Verdict:
    """The verdict in the last lines of `log`, what `.ci/run` printed. ValueError if these aren't
    the lines of FIELDS, in this order, and then the counts. The lines of the linters and of the
    tools' tests aren't kept: the status and the counts include them."""
    lines = log.rstrip('\n').split('\n')
    fields: Dict[str, str] = {}
    for name, line in zip(FIELDS, lines[-len(FIELDS) - 1 : -1]):
        field, colon, value = line.partition(': ')
        if field != name or not colon:
            raise ValueError(f'the last lines are not those of .ci/run: no line "{name}: .."')
        fields[name] = value
    if len(fields) < len(FIELDS) or not COUNTS.fullmatch(lines[-1]):
        raise ValueError('the last line is not "N passed, M failed", as .ci/run ends')
    return Verdict(
        commit=fields['commit'],
        tree=fields['tree'],
        toolchain=fields['toolchain'],
        edits=fields['edits'],
        status=fields['status'],
        counts=lines[-1],
    )


def counts_of_passed_gate(log: str, commit: str, toolchain: str) -> str:
    """The counts of a passed gate, as `N passed, 0 failed`, from `log`, what `.ci/run` printed.
    ValueError if the gate didn't pass or didn't try all must-fail edits, or was of another commit
    or toolchain, or if the log doesn't end as a gate does."""
    verdict = parse_verdict(log)
    reasons = verdict.reasons_against(commit, toolchain)
    if reasons:
        raise ValueError('the gate is not of this release: ' + '; '.join(reasons))
    return verdict.counts
