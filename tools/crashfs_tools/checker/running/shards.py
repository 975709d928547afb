"""The shards of one check, put together: their results become those of the whole check."""

from __future__ import annotations

import os
import shlex
from dataclasses import replace
from typing import List

from crashfs_tools.checker.options import Shard
from crashfs_tools.common.command import Refused

from .results import AllResults, Head


def merge_shards(shards: List[AllResults]) -> AllResults:
    """The results of all shards of one check as one. The windows are those of a shard with the
    most, which are changed: they get the outcomes and second runs of all. The head is that of
    merged_head(). not_done is that of all; options_with_findings is dropped. A shard that was
    stopped may have fewer windows. Refused if a shard is missing, given twice, or of another
    check; ValueError if there are no shards."""
    longest = max(shards, key=lambda shard: len(shard.windows))
    refuse_other_reports(longest, shards)
    for shard in shards:
        longest.add_outcomes(shard)
    not_done = dict.fromkeys(line for shard in shards for line in shard.not_done)
    return AllResults(merged_head(longest, shards), longest.windows, not_done=tuple(not_done))


def refuse_other_reports(longest: AllResults, shards: List[AllResults]) -> None:
    """Refused unless reports are all shards of one check, each given once. `longest` is one of
    those with the most windows."""
    for shard in shards:
        refuse_different_checks(longest, shard)
    refuse_different_commands([shard.head.command for shard in shards])
    refuse_wrong_shards([shard.head.shard.part for shard in shards], longest.head.shard.parts)


def refuse_different_checks(first: AllResults, other: AllResults) -> None:
    """Refused unless two reports are shards of one check: their traces and numbers of shards are
    equal, and so are plans and profiles of the windows that both have. `first` must have at least
    as many windows as `other`."""
    first_windows, other_windows = (
        [window.identity() for window in results.windows[: len(other.windows)]]
        for results in (first, other)
    )
    first_check, other_check = (
        (results.head.digest, results.head.shard.parts) for results in (first, other)
    )
    if first_windows != other_windows or first_check != other_check:
        raise Refused('the reports are not shards of one check')


def refuse_different_commands(commands: List[List[str]]) -> None:
    """Refused unless all commands have equal words; only the directories of their programs may
    differ. There must be at least one command."""
    first, *others = (
        [os.path.basename(words[0]), *words[1:]] if words else [] for words in commands
    )
    for other in others:
        if other != first:
            both = ' and '.join(map(shlex.join, (first, other)))
            raise Refused(f'the reports are of different COMMANDs: {both}')


def refuse_wrong_shards(parts: List[int], count: int) -> None:
    """Refused unless each of the shards 1 to `count` is given exactly once. `parts` has the numbers
    of the given shards."""
    for part in range(1, count + 1):
        times = parts.count(part)
        if times != 1:
            raise Refused(
                f'shard {part}/{count} ' + (f'was given {times} times' if times else 'is missing')
            )


def merged_head(longest: AllResults, shards: List[AllResults]) -> Head:
    """One head for all shards of a check, from that of `longest`: a shard with the most windows,
    which must have the outcomes of all by now. The head is unproved if one shard's is, and has_rest
    if that of a shard with the most windows has. Its `stopped` is that of the first stopped shard,
    or says that a window lacks outcomes."""
    heads = [shard.head for shard in shards]
    stopped = next((head.stopped for head in heads if head.stopped), '')
    if not stopped and not all(window.is_whole for window in longest.windows):
        stopped = 'a part without all outcomes'
    return replace(
        longest.head,
        shard=Shard(),
        unproved=any(head.unproved for head in heads),
        refused_version=max(head.refused_version for head in heads),
        has_rest=any(
            shard.head.has_rest for shard in shards if len(shard.windows) == len(longest.windows)
        ),
        stopped=stopped,
    )
