"""Takes the disks of several file systems and moments at once, each in a process of its own."""

from __future__ import annotations

import os
import resource
import signal
from functools import partial
from typing import Callable, Dict, List, NamedTuple, Sequence, Tuple

from crashfs_tools.common.descendants import die_with_parent
from crashfs_tools.common.entry import Entries
from crashfs_tools.common.signals import ignore_signals
from crashfs_tools.common.trace import Trace

from .crashing import CrashMaker
from .disk import Crash, Disk, different_disks
from .filesystems import FileSystem
from .flushes import FlushKind
from .moments import Moment
from .own_mounts import use_own_mounts
from .workers import DiskWorkers

# The trees that crashes have left.
CrashedTrees = List[Tuple[Entries, Crash]]


class Task(NamedTuple):
    """A moment of the session to be tried on a file system. `name` is the file system's."""

    name: str
    moment: Moment


class DiskPool:
    """The disks that crashes of a session leave on file systems. `folder` is for their images,
    which stay there; `flush_kinds` are those that are tried at each moment, by default all;
    `line_numbers` are those of the operations, as CrashMaker takes them."""

    def __init__(
        self,
        filesystems: Sequence[FileSystem],
        trace: Trace,
        folder: str,
        flush_kinds: Sequence[FlushKind] = tuple(FlushKind),
        line_numbers: Sequence[int] = (),
    ) -> None:
        """The folder must be there. Nothing is made or started before disks() is called."""
        self.makers = {
            filesystem.name: CrashMaker(filesystem, trace, folder, line_numbers)
            for filesystem in filesystems
        }
        self.flush_kinds = flush_kinds

    def tasks(self) -> List[Task]:
        """Each moment of the session on each file system, one file system after the other."""
        return [
            Task(name, moment) for name, maker in self.makers.items() for moment in maker.moments
        ]

    def disks(self, jobs: int, on_step: Callable[[int, int], None]) -> Dict[str, List[Disk]]:
        """The different disks of each file system, by its name, made by up to `jobs` processes.
        on_step is called after each task, with how many tasks are done and how many there are.
        Refused if an image can't be made, mounted or repaired, if a process can't have mounts of
        its own, or if one was killed; any other fault of a process is an OSError or a
        workers.Fault. After a fault there are no disks."""
        tasks = self.tasks()
        trees_by_name: Dict[str, CrashedTrees] = {name: [] for name in self.makers}
        with DiskWorkers(jobs, partial(become_worker, os.getpid()), self.do_task) as workers:
            for done_count, (name, crashed_trees) in enumerate(workers.results(tasks), 1):
                trees_by_name[name] += crashed_trees
                on_step(done_count, len(tasks))
        return {
            name: different_disks(crashes_in_order(crashed_trees))
            for name, crashed_trees in trees_by_name.items()
        }

    def do_task(self, task: Task) -> Tuple[str, CrashedTrees]:
        """In a worker: the name of a task's file system, and the trees that crashes at the task's
        moment leave on it. Errors as CrashMaker raises them."""
        return task.name, list(self.makers[task.name].crashed_trees(task.moment, self.flush_kinds))


def become_worker(parent: int) -> None:
    """Makes this process a worker of the process `parent`, which forked it. It ends with the
    parent, at once if that is gone; it ignores SIGINT and SIGHUP, SIGTERM ends it, its umask is 0,
    and it may open as many files as its hard limit allows, since a replay keeps files open. Refused
    if it can't have mounts of its own."""
    _, hard_limit = resource.getrlimit(resource.RLIMIT_NOFILE)
    resource.setrlimit(resource.RLIMIT_NOFILE, (hard_limit, hard_limit))
    ignore_signals((signal.SIGINT, signal.SIGHUP))
    signal.signal(signal.SIGTERM, signal.SIG_DFL)
    die_with_parent()
    if os.getppid() != parent:
        os._exit(1)
    os.umask(0)
    use_own_mounts()


def crashes_in_order(crashed_trees: CrashedTrees) -> CrashedTrees:
    """The crashes in the order of their moments, and at one moment of their kinds of flushes:
    workers send them in any order. Crashes of one kind at one moment stay in their order."""
    return sorted(crashed_trees, key=lambda pair: (pair[1].moment, pair[1].flush_kind.rank))
