"""Outcomes of earlier checks, in a directory: what COMMAND made of equal files with equal lines.

COMMAND is known by its words and by the content of the files that it opens, which strace shows in
two runs. A file of outcomes is replaced as a whole, and synced; what isn't whole, or may have been
written by another user, is not read.
"""

from __future__ import annotations

import fcntl
import hashlib
import json
import os
import stat
from contextlib import contextmanager
from typing import Any, Dict, Iterator, List, Optional, Set

from crashfs_tools.checker.states.plan import Plan
from crashfs_tools.common.command import Refused
from crashfs_tools.common.removal import FOLDER
from crashfs_tools.common.whole_files import write_whole_file
from crashfs_tools.reading import parse_trace
from crashfs_tools.reading.trees import Trees

from .runner import BAD, GOOD, Outcome

FORMAT = 1
# So many outcomes of one COMMAND are kept: the last ones that were used.
MOST_OUTCOMES = 200_000
OWN_MODE = 0o600
WRITABLE_BY_OTHERS = stat.S_IWGRP | stat.S_IWOTH


class OutcomeCache:
    """The outcomes of one COMMAND, by keys of states, from a file of a directory. name is a part of
    the file's name. hits counts outcomes of earlier checks that were used, each once."""

    def __init__(self, folder: str, name: str) -> None:
        """Reads the file. A file that isn't there, or that read_cache_file() doesn't accept, counts
        as empty. Nothing is written before save()."""
        self.path = os.path.join(folder, f'outcomes-{name}.json')
        self.earlier_outcomes: Dict[str, Any] = read_cache_file(self.path)
        self.used_outcomes: Dict[str, List[str]] = {}
        self.dropped_keys: Set[str] = set()
        self.hits = 0

    def look_up(self, key: str) -> Optional[Outcome]:
        """Returns the outcome for a key, of this check or of an earlier one; None if there is none,
        or if the file has anything else for the key than the fields of an outcome with an answer.
        The outcome is kept for later checks. The first use of an outcome of an earlier check counts
        as a hit."""
        fields = self.used_outcomes.get(key) or self.earlier_outcomes.get(key)
        if not isinstance(fields, list) or list(map(type, fields)) != [str, str, str]:
            return None
        if fields[0] not in (GOOD, BAD):
            return None
        self.hits += key not in self.used_outcomes
        self.used_outcomes[key] = fields
        return Outcome(*fields)

    def add(self, key: str, outcome: Outcome) -> None:
        """Keeps the outcome of this check for a key, in memory until save(). An outcome without an
        answer isn't kept."""
        if outcome.result in (GOOD, BAD):
            self.used_outcomes[key] = list(outcome)

    def drop(self, key: str) -> None:
        """Drops the outcome of a key, if there is one: save() drops it from the file too, even if
        another check added it."""
        self.used_outcomes.pop(key, None)
        self.earlier_outcomes.pop(key, None)
        self.dropped_keys.add(key)

    def save(self) -> None:
        """Reads the file again, and replaces it. Outcomes of other checks stay in the file, unless
        they were dropped here; those that this check used or added come last. Of more than
        MOST_OUTCOMES the first ones of other checks are left out. Waits while another check saves.
        OSError as folder_lock() and write_cache_file()."""
        with folder_lock(os.path.dirname(self.path)):
            own_keys = {*self.used_outcomes, *self.dropped_keys}
            other_outcomes = [
                item for item in read_cache_file(self.path).items() if item[0] not in own_keys
            ]
            most_others = max(0, MOST_OUTCOMES - len(self.used_outcomes))
            latest_others = dict(other_outcomes[max(0, len(other_outcomes) - most_others) :])
            write_cache_file(self.path, {**latest_others, **self.used_outcomes})


class StateKeys:
    """Keys for the states of a plan: equal for states that have equal files and equal lines, of
    whatever trace."""

    def __init__(self, trace_path: str, plan: Plan, acknowledged: List[str]) -> None:
        """trace_path is the path of the plan's trace, and acknowledged are the session's
        acknowledged lines. OSError if the trace can't be read, ReadingFault if the second reading
        refuses it."""
        with open(trace_path, 'rb') as file:
            self.reading = parse_trace(file.read())
        self.trees = Trees(self.reading)
        self.plan = plan
        self.acknowledged = acknowledged

    def key(self, number: int, attempt: int) -> str:
        """The key of the listed state of a number: a digest of its tree, of its acknowledged lines,
        of the size of blocks, and of `attempt`, which is 0 for COMMAND's first run in the state,
        and another number for each further run."""
        state = self.plan.state(number)
        tree = self.trees.digest(self.plan.kept[number])
        lines = self.acknowledged[: state.says]
        text = repr((self.reading.block_size, tree, lines, attempt))
        return hashlib.sha256(text.encode('utf-8', 'surrogateescape')).hexdigest()


def require_folder(path: str) -> None:
    """Makes the directory of a cache, with the mode 700, and those above it, unless it is there.
    Refused if it can't be made, is no directory, belongs to another user, or if others may write in
    it."""
    try:
        os.makedirs(path, mode=0o700, exist_ok=True)
        status = os.stat(path)
    except FileExistsError as error:
        raise Refused(f'--cache {path} is no directory') from error
    except OSError as error:
        raise Refused(f'--cache {path}: {error.strerror}') from error
    if status.st_uid != os.geteuid() or status.st_mode & WRITABLE_BY_OTHERS:
        raise Refused(f'--cache {path}: others may write it')


@contextmanager
def folder_lock(folder: str) -> Iterator[None]:
    """Holds the lock of a folder within the `with`: only one process has the lock at a time. Waits
    for it without limit. OSError if the folder can't be opened, or its file system has no locks."""
    descriptor = os.open(folder or '.', FOLDER)
    try:
        fcntl.flock(descriptor, fcntl.LOCK_EX)
        yield
    finally:
        os.close(descriptor)


def read_cache_file(path: str) -> Dict[str, Any]:
    """The values that write_cache_file() wrote to a file. An empty map if the file can't be read,
    is a symbolic link, isn't whole or is of another FORMAT, or if another user owns the file or may
    write it."""
    try:
        with open(os.open(path, os.O_RDONLY | os.O_NOFOLLOW | os.O_CLOEXEC), 'rb') as file:
            status = os.fstat(file.fileno())
            file_bytes = file.read()
        if status.st_uid != os.geteuid() or status.st_mode & WRITABLE_BY_OTHERS:
            return {}
        digest, _, json_bytes = file_bytes.partition(b'\n')
        if hashlib.sha256(json_bytes).hexdigest().encode() != digest:
            return {}
        fields = json.loads(json_bytes)
        return dict(fields['values']) if fields['format'] == FORMAT else {}
    except (OSError, ValueError, KeyError, TypeError):
        return {}


def write_cache_file(path: str, values: Dict[str, Any]) -> None:
    """Replaces a file by values that JSON has, durably, so that only its owner may read it. Its
    first line is the digest of the rest. OSError if it can't be written: the old file stays, unless
    only the sync of its directory failed."""
    json_text = json.dumps({'format': FORMAT, 'values': values})
    digest = hashlib.sha256(json_text.encode()).hexdigest()
    write_whole_file(path, [digest, '\n', json_text], OWN_MODE)
