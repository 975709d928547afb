"""The processes that this one started, and their descendants: which they are, and how they are
ended.

A reaper has the orphans of all that it started as its own children, whatever these did to their
environment, session or user. So nothing that it started is left if it has no child.
"""

from __future__ import annotations

import os
import signal
import time
from typing import AbstractSet, Callable, Dict, Iterable, Iterator, NamedTuple, Set

PR_SET_PDEATHSIG, PR_SET_CHILD_SUBREAPER = 1, 36
# The name of a process that cleans up after another one, and then ends by itself.
CLEANER = 'crashfs-guard'
CLEANING_SECONDS = 5.0
# A process that still runs after so long can't be ended.
ENDING_SECONDS = 10.0
PAUSE_SECONDS = 0.0005


def die_with_parent() -> None:
    """From here on this process is killed when the thread that started it ends; processes that it
    forks aren't. Nothing happens if the system can't do that, or if the thread has ended
    already."""
    set_process_option(PR_SET_PDEATHSIG, signal.SIGKILL)


def become_reaper() -> bool:
    """From here on orphans of this process's descendants become its children. Returns whether the
    system allows that; if not, they become children of another process."""
    return set_process_option(PR_SET_CHILD_SUBREAPER, 1)


def set_process_option(option: int, value: int) -> bool:
    """Gives an option of this process a value, by prctl(2). Returns whether that succeeded; False
    also if this Python has no ctypes, or the system no prctl."""
    try:
        import ctypes

        return bool(ctypes.CDLL(None).prctl(option, value, 0, 0, 0) == 0)
    except (ImportError, OSError, AttributeError):
        return False


def child_processes(process: int = 0) -> Set[int]:
    """The children of a process, or of this one (0), also those that have ended but weren't waited
    for; one may be missing if others end meanwhile. Empty if the process is gone. If the kernel has
    no lists of children, all processes are read."""
    folder = f'/proc/{process or "self"}/task'
    try:
        list_paths = [f'{folder}/{task}/children' for task in os.listdir(folder)]
    except OSError:
        return set()
    children: Set[int] = set()
    for path in list_paths:
        try:
            # Unbuffered: this is read twice for each state.
            with open(path, 'rb', buffering=0) as file:
                children.update(map(int, file.readall().split()))
        except OSError:
            if not has_children_lists():
                return children_by_parents(process or os.getpid())
    return children


def has_children_lists() -> bool:
    """Whether the kernel was built with lists of children."""
    return os.path.exists(f'/proc/self/task/{os.getpid()}/children')


def children_by_parents(process: int) -> Set[int]:
    """The children of a process, found by the parent of each process. It is slower than the
    kernel's lists of children, which some kernels lack. OSError without /proc."""
    return {child for child in all_processes() if parent_process(child) == process}


def all_processes() -> Iterator[int]:
    """The numbers of all processes. OSError without /proc."""
    return (int(name) for name in os.listdir('/proc') if name.isdigit())


def parent_process(process: int) -> int:
    """The parent of a process. 0 if the process is gone, or has no parent that this process can
    see."""
    try:
        return read_process_stat(process).parent
    except OSError:
        return 0


class ProcessStat(NamedTuple):
    """What the system reports of a process or thread: its state, as a letter; its parent; the
    processor time that it and its children that were waited for took, and when it began, in clock
    ticks; its memory, in pages."""

    state: str
    parent: int
    processor_ticks: int
    start_ticks: int
    memory_pages: int


def read_process_stat(process: int) -> ProcessStat:
    """What /proc/PROCESS/stat has of a process or thread. OSError if it is gone."""
    with open(f'/proc/{process}/stat', encoding='ascii', errors='replace') as file:
        # The name of the program, in brackets before these fields, may have any bytes.
        fields = file.read().rpartition(')')[2].split()
    # proc(5) numbers the fields from 1, and the first one here is the third.
    return ProcessStat(
        state=fields[0],
        parent=int(fields[1]),
        processor_ticks=sum(map(int, fields[11:15])),
        start_ticks=int(fields[19]),
        memory_pages=int(fields[21]),
    )


def descendant_processes() -> Set[int]:
    """The children of this process, their children, and so on. Orphans are among them only if this
    process is a reaper. A process that is started meanwhile may be missing."""
    descendants: Set[int] = set()
    parents = child_processes()
    while parents:
        descendants |= parents
        parents = {child for parent in parents for child in child_processes(parent)} - descendants
    return descendants


def program_name(process: int) -> str:
    """The name of a process, cut by the system to 15 bytes: that of its program, unless it has
    another one by become_cleaner() or the like. An empty text if the process is gone."""
    try:
        with open(f'/proc/{process}/comm', encoding='utf-8', errors='replace') as file:
            return file.read().rstrip('\n')
    except OSError:
        return ''


def become_cleaner() -> None:
    """Names this process CLEANER, so that kill_unless_cleaning() gives it time to end by itself.
    Nothing happens if the system doesn't allow that."""
    try:
        with open('/proc/self/comm', 'w', encoding='ascii') as file:
            file.write(CLEANER)
    except OSError:
        pass


def end_children(
    spared: AbstractSet[int] = frozenset(), seconds: float = ENDING_SECONDS
) -> Dict[int, str]:
    """Kills the children of this process except the spared ones, each by kill_with_group(), and, if
    it is a reaper, the orphans that become its children then, until none remains. Waits for them:
    their statuses are lost. Returns those that still run after `seconds`, each with the name of its
    program; empty if none does. A cleaner has CLEANING_SECONDS to end by itself."""
    start_time = time.monotonic()
    while True:
        remaining = child_processes() - spared
        if not remaining:
            return {}
        elapsed = time.monotonic() - start_time
        kill_unless_cleaning(remaining, elapsed, kill_with_group)
        running = [child for child in remaining if not reap_if_ended(child)]
        if elapsed > seconds:
            return {child: program_name(child) for child in running}
        if len(running) == len(remaining):
            time.sleep(PAUSE_SECONDS)


def kill_unless_cleaning(
    processes: Iterable[int], elapsed: float, kill: Callable[[int], None]
) -> None:
    """Calls `kill` with each of these processes; with a cleaner only if more than CLEANING_SECONDS
    have elapsed since the first try to end it."""
    for process in processes:
        if elapsed > CLEANING_SECONDS or program_name(process) != CLEANER:
            kill(process)


def kill_with_group(child: int) -> None:
    """Kills a child, and first its process group if it is in another session than this process. A
    group is killed at once: a process in it that forks all the time can't escape. Other children in
    this group are killed too. Nothing happens if the child is gone."""
    try:
        session, group = os.getsid(child), os.getpgid(child)
    except OSError:
        return
    if session != os.getsid(0) and group > 1:
        try_to_kill(os.killpg, group)
    kill_process(child)


def kill_process(process: int) -> None:
    """Kills a process, which isn't waited for. Nothing happens if it is gone, or another user's."""
    try_to_kill(os.kill, process)


def try_to_kill(kill: Callable[[int, int], None], target: int) -> None:
    """Sends SIGKILL to a target by `kill`: os.kill for a process, os.killpg for a process group. An
    OSError is ignored: the target is gone, or another user's."""
    try:
        kill(target, signal.SIGKILL)
    except OSError:
        pass


def reap_if_ended(child: int) -> bool:
    """Waits for a child if it has ended; a child that runs is left alone. Returns whether it is
    gone, also if it was waited for before."""
    try:
        return os.waitpid(child, os.WNOHANG)[0] != 0
    except ChildProcessError:
        return True


def processes_text(names: Dict[int, str]) -> str:
    """Processes as `7 (sleep), 9 (sh)`: each number with the name of its program, ascending. Names
    aren't made printable. An empty text if there are none."""
    return ', '.join(f'{process} ({name})' for process, name in sorted(names.items()))
