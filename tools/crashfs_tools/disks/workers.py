"""Processes that do tasks. Each has a pipe of its own, and they share no lock: if one is killed,
neither the others nor this process wait for it.

Those of checker.running.workers must undo what they laid out before they end, and have all their
states from the beginning. These may be killed at any time, as the system removes their mounts, and
get a task whenever they are free, as some tasks take much longer than others.
"""

from __future__ import annotations

import os
import signal
import traceback
from functools import partial
from multiprocessing.connection import Connection, Pipe, wait
from typing import (
    Any,
    Callable,
    Dict,
    Generic,
    Iterator,
    List,
    NamedTuple,
    NoReturn,
    Optional,
    Set,
    TypeVar,
    Union,
)

from crashfs_tools.common.command import Refused
from crashfs_tools.common.signals import stop_signals_blocked

Task = TypeVar('Task')
Result = TypeVar('Result')

# Python sees a signal that comes just as it begins to wait only after so long.
TURN_SECONDS = 0.5
GONE = '--disks: a process that makes disks was killed'


class Fault(Exception):
    """What a worker raised, other than Refused and OSError, as the text of its traceback."""


class Answer(NamedTuple):
    """What a worker sends for a task: the result or, if `fault` isn't None, what was raised."""

    result: Any
    fault: Optional[Exception] = None


class DiskWorkers(Generic[Task, Result]):
    """At most `most_processes` processes that do tasks, used by `with`. Each calls `set_up` first,
    and then `do_task` with each of its tasks. They are forks of this process, so these may be any
    functions; tasks and results go through pipes, so they must be objects that can be pickled. At
    the end of the `with` the processes are killed."""

    def __init__(
        self, most_processes: int, set_up: Callable[[], None], do_task: Callable[[Task], Result]
    ) -> None:
        """Starts no process: results() does."""
        self.most_processes = most_processes
        self.set_up = set_up
        self.do_task = do_task
        # The processes by this process's ends of their pipes.
        self.processes: Dict[Connection, int] = {}

    def __enter__(self) -> DiskWorkers[Task, Result]:
        return self

    def __exit__(self, *_: object) -> None:
        """Kills the processes, whether or not they have ended, waits for them, and closes their
        pipes."""
        for process in self.processes.values():
            os.kill(process, signal.SIGKILL)
        for connection, process in self.processes.items():
            connection.close()
            os.waitpid(process, 0)
        self.processes.clear()

    def results(self, tasks: List[Task]) -> Iterator[Result]:
        """The results of tasks, in the order in which they arrive. May be called only once, since
        it starts the processes. Refused and OSError of `set_up` or `do_task` are raised as they
        are, any other exception as a Fault; Refused also if a process was killed, and OSError if
        one can't be started. No result follows any of these."""
        remaining_tasks = iter(tasks)
        self.start_processes(min(self.most_processes, len(tasks)))
        busy_pipes = [pipe for pipe in self.processes if send_next_task(pipe, remaining_tasks)]
        for pipe in ready_pipes(busy_pipes):
            yield receive_result(pipe)
            if not send_next_task(pipe, remaining_tasks):
                busy_pipes.remove(pipe)

    def start_processes(self, count: int) -> None:
        """Starts `count` processes. OSError as start_process(): the ones that were started before
        run on, until the end of the `with`."""
        for _ in range(count):
            self.start_process()

    def start_process(self) -> None:
        """Starts a process, and adds it to `processes`. Signals wait meanwhile: the new process
        must not handle a signal as this process does. OSError if the system can't fork, or has no
        more pipes."""
        own_end, worker_end = Pipe()
        with stop_signals_blocked() as blocked_before:
            process = os.fork()
            if process == 0:
                own_end.close()
                self.do_tasks(worker_end, blocked_before)
            self.processes[own_end] = process
        worker_end.close()

    def do_tasks(
        self, pipe: Connection, blocked_before: Set[Union[int, signal.Signals]]
    ) -> NoReturn:
        """In the new process, never returns: does each task that its pipe brings, and sends the
        answer. If `set_up` raises, each answer has its fault. Signals wait until `set_up` has
        returned; those of `blocked_before` were blocked before the fork, and stay so. A result that
        can't be pickled ends the process: receive_result() then takes it as killed."""
        try:
            set_up = answer_of(self.set_up)
            signal.pthread_sigmask(signal.SIG_SETMASK, blocked_before)
            while True:
                do_task = partial(self.do_task, pipe.recv())
                pipe.send(answer_of(do_task) if set_up.fault is None else set_up)
        finally:
            os._exit(0)


def ready_pipes(busy_pipes: List[Connection]) -> Iterator[Connection]:
    """The pipes that have something to receive, each when it is ready, until the list is empty: the
    caller receives what is yielded, and removes pipes that get no further task from the list."""
    while busy_pipes:
        ready = wait(busy_pipes, TURN_SECONDS)
        yield from (pipe for pipe in ready if isinstance(pipe, Connection))


def send_next_task(pipe: Connection, remaining_tasks: Iterator[Task]) -> bool:
    """Sends the next one of the remaining tasks to a process. Returns False, and sends nothing, if
    no task remains. Refused if the process was killed."""
    try:
        pipe.send(next(remaining_tasks))
    except StopIteration:
        return False
    except OSError as error:
        raise Refused(GONE) from error
    return True


def receive_result(pipe: Connection) -> Any:
    """Waits without limit for a process's answer, and returns its result. Raises its fault, or
    Refused if the process was killed."""
    try:
        answer: Answer = pipe.recv()
    except (EOFError, OSError) as error:
        raise Refused(GONE) from error
    if answer.fault is not None:
        raise answer.fault
    return answer.result


def answer_of(call: Callable[[], Any]) -> Answer:
    """Calls a function, and returns its result or its fault: Refused and OSError as they are, any
    other Exception as a Fault, since a pipe may not be able to send it. Other BaseExceptions, such
    as SystemExit, are raised."""
    try:
        return Answer(call())
    except (Refused, OSError) as fault:
        return Answer(None, fault)
    except Exception:
        return Answer(None, Fault(traceback.format_exc()))
