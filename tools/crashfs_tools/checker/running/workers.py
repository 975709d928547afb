"""Processes that lay states out and run COMMAND in them: as many as there are jobs. Those of
disks.workers, which need to undo nothing, are simpler."""

from __future__ import annotations

import gc
import json
import os
import signal
import time
from contextlib import ExitStack
from dataclasses import dataclass, replace
from functools import partial
from typing import Any, Callable, Dict, List, NoReturn, Set

from crashfs_tools.checker.states.layout import Layout
from crashfs_tools.common.command import Refused, ending_text
from crashfs_tools.common.descendants import become_reaper
from crashfs_tools.common.guard import end_processes_with_token, with_token
from crashfs_tools.common.streams import open_pipe, poll_for_input
from crashfs_tools.common.program import ProgramFault
from crashfs_tools.common.signals import STOPS, stop_signals_blocked

from .pace import TooSlow
from .runner import BAD, GOOD, GOOD_OUTCOME, POLL_SECONDS, CheckEnded, Checker, Outcome, reap_child

# How long workers have to undo what they laid out before they are killed.
UNDO_SECONDS = 5.0
# end() looks so often whether workers have ended.
END_POLL_SECONDS = 0.01
PIECE_BYTES = 1 << 16
# A process sends its outcomes after so long.
SENT_SECONDS = 0.05

# Called with a state's number and its outcome.
OnOutcome = Callable[[int, Outcome], None]


@dataclass
class Worker:
    """One process of a check: its number, this end of its pipe, and what was read of the line whose
    end wasn't read yet."""

    process: int
    pipe: int
    partial_line: bytes = b''


class Outbox:
    """Lines that a process sends by its pipe, several at once. A line is the number of a state that
    is good, or the JSON of another outcome, of a fault, or of the processes that commands left."""

    def __init__(self, pipe: int) -> None:
        """`pipe` is the descriptor of the end for writing, which is never closed here. The first
        SENT_SECONDS begin now."""
        self.pipe = pipe
        self.lines: List[str] = []
        self.send_time = time.monotonic()

    def add_outcome(self, number: int, outcome: Outcome) -> None:
        """Adds the outcome of the state of a number. Then sends all lines, as send() does, if the
        last time was SENT_SECONDS ago or more."""
        if outcome.result == GOOD:
            self.lines.append(f'{number}\n')
        else:
            self.add_fields({'state': number, 'outcome': outcome})
        if time.monotonic() - self.send_time >= SENT_SECONDS:
            self.send()

    def add_fields(self, fields: Dict[str, Any]) -> None:
        """Adds these fields as a line of JSON, which the next send() sends."""
        self.lines.append(json.dumps(fields) + '\n')

    def send(self) -> None:
        """Writes all lines that were added to the pipe, and waits while it is full. BrokenPipeError
        if nobody reads it: the lines are lost then."""
        unsent = ''.join(self.lines).encode()
        self.lines = []
        while unsent:
            unsent = unsent[os.write(self.pipe, unsent) :]
        self.send_time = time.monotonic()


class StateWorkers:
    """Processes that share the states: of n processes the k-th one tries each n-th state.
    on_outcome is called in this process, which started them. Each of them ends when the pipe
    life_pipe has no writer any more, also if this process is killed. Call run() once, and end() in
    any case; then left_processes has what commands left that could not be ended."""

    def __init__(
        self,
        checker: Checker,
        layout: Layout,
        jobs: int,
        on_outcome: OnOutcome,
        *,
        fail_fast: bool = False,
    ) -> None:
        """Opens the pipe of life_pipe and life_writer, which end() closes. OSError if too many
        files are open. No process is started yet."""
        self.checker = checker
        self.layout = layout
        self.jobs = jobs
        self.on_outcome = on_outcome
        self.fail_fast = fail_fast
        # With fail_fast: whether a state has failed.
        self.has_failed = False
        self.workers: List[Worker] = []
        # Processes of commands that could not be ended, with the names of their programs.
        self.left_processes: Dict[int, str] = {}
        self.life_pipe, self.life_writer = os.pipe()

    def run(self, line_counts: Dict[int, int]) -> None:
        """Runs the recovery in each state of line_counts, which has by the state's number how many
        acknowledged lines it gets. Returns when all processes have ended or, with fail_fast, at the
        first failure. Raises the first fault that a process reports, and what on_outcome raises;
        Refused if a process was killed, OSError if one can't be started. Other processes may still
        run after a failure or an exception."""
        self.start_workers(line_counts)
        while self.workers and not self.has_failed:
            for worker in self.ready_workers():
                if not self.read_outcomes(worker):
                    self.reap_worker(worker)

    def ready_workers(self) -> List[Worker]:
        """Those of `workers` whose pipe has something to read, or is at its end. Waits at most
        POLL_SECONDS for one, and may return none."""
        workers = {worker.pipe: worker for worker in self.workers}
        ready = poll_for_input(*workers).poll(POLL_SECONDS * 1000)
        return [workers[pipe] for pipe, _ in ready]

    def read_outcomes(self, worker: Worker) -> bool:
        """Waits for a piece of what a process sends, and handles the lines that end in it. Returns
        False at the end of its pipe: a line without an end is dropped there. If one of the lines is
        a fault, or on_outcome raises an exception, that is raised, and the lines after it are lost.
        BlockingIOError if the pipe is set not to block, and nothing is there."""
        piece = os.read(worker.pipe, PIECE_BYTES)
        *lines, worker.partial_line = (worker.partial_line + piece).split(b'\n')
        for line in lines:
            self.handle_line(line)
        return bool(piece)

    def start_workers(self, line_counts: Dict[int, int]) -> None:
        """Starts a process for each job, or fewer if there are fewer states: the k-th of n gets
        each n-th number, from the k-th on. OSError as start_worker(): the others run then."""
        numbers = sorted(line_counts)
        worker_count = min(self.jobs, len(numbers))
        for place in range(worker_count):
            self.start_worker(numbers[place::worker_count], line_counts)

    def start_worker(self, share: List[int], line_counts: Dict[int, int]) -> None:
        """Forks a process for a share of the states, and adds it to `workers`. The signals of STOPS
        do nothing in that process: only end() ends it early. OSError if the system has no room for
        a process, or too many files are open: then no pipe stays open."""
        # A signal waits meanwhile: the new process takes none as this one does.
        with ExitStack() as opened, stop_signals_blocked() as old_mask:
            reader, writer = open_pipe(opened)
            process = os.fork()
            opened.pop_all()
            if process == 0:
                for stop_signal in STOPS:
                    if signal.getsignal(stop_signal) is not signal.SIG_IGN:
                        signal.signal(stop_signal, lambda *_: None)
                signal.pthread_sigmask(signal.SIG_SETMASK, old_mask)
                os.close(self.life_writer)
                # So that it doesn't wait for room in a pipe that nobody reads.
                os.close(reader)
                self.run_worker(share, line_counts, writer)
            os.close(writer)
            self.workers.append(Worker(process, reader))

    def run_worker(self, share: List[int], line_counts: Dict[int, int], pipe: int) -> NoReturn:
        """What the new process does: tries the states of its share, ascending, and sends the
        outcomes by its pipe. It never returns: the process ends, with status 0. It ends early if
        there is a fault, which it sends; if the check ends; if a state fails, with fail_fast; and
        if nobody reads the pipe."""
        # The collector then leaves alone, and so doesn't copy, the memory shared with the parent.
        gc.freeze()
        outbox = Outbox(pipe)
        checker = self.checker_for_worker(outbox)
        try:
            for number, directory in self.layout.states(set(share)):
                with self.layout.laid_out(number, directory):
                    outcome = checker.run(number, line_counts[number], directory)
                outbox.add_outcome(number, outcome)
                if self.fail_fast and outcome.result == BAD:
                    break
        except CheckEnded:
            pass
        except BaseException as fault:
            outbox.add_fields(fault_fields(fault))
        finally:
            try:
                if checker.left_processes:
                    outbox.add_fields({'left': list(checker.left_processes.items())})
                outbox.send()
            finally:
                os._exit(0)

    def checker_for_worker(self, outbox: Outbox) -> Checker:
        """The checker of a new process, which becomes the reaper of what its commands leave. A run
        ends at the end of life_pipe, and sends the outbox's lines if the command is slow. If the
        system has no reapers, the commands get a token of their own in their environment, by which
        the checker finds what they leave."""
        checker = replace(self.checker, life=self.life_pipe, when_slow=outbox.send)
        if not become_reaper():
            token = os.urandom(16).hex()
            checker.environment = with_token(checker.environment, token)
            checker.end_processes_with_token = partial(end_processes_with_token, token)
        return checker

    def handle_line(self, line: bytes) -> None:
        """Handles a line of an Outbox: passes an outcome to on_outcome, adds processes to
        left_processes, or raises a fault. With fail_fast the first failure sets has_failed; later
        failures are dropped."""
        if line.isdigit():
            self.on_outcome(int(line), GOOD_OUTCOME)
            return
        fields = json.loads(line)
        if 'left' in fields:
            self.left_processes.update(fields['left'])
            return
        if 'state' not in fields:
            raise fault_from_fields(fields)
        outcome = Outcome(*fields['outcome'])
        is_last = self.fail_fast and outcome.result == BAD
        # Other processes may find a failing state before they are ended.
        if not (is_last and self.has_failed):
            self.has_failed = self.has_failed or is_last
            self.on_outcome(fields['state'], outcome)

    def reap_worker(self, worker: Worker) -> None:
        """Waits for a process whose pipe is at its end, drops it from `workers`, and closes the
        pipe. Refused then if its status isn't 0, as after a kill."""
        status = reap_child(worker.process)
        self.workers.remove(worker)
        os.close(worker.pipe)
        if status != 0:
            raise Refused(f'a process of this check {ending_text(status)}')

    def end(self, end_processes: Callable[[Set[int]], object]) -> None:
        """Ends all processes, and closes the pipe of life_pipe; call it once. Calls end_processes()
        again and again to end their commands: that function must spare the processes whose numbers
        it gets. Processes that still run after UNDO_SECONDS are killed. on_outcome gets what they
        still send. After an exception some may be left, which end by themselves."""
        os.close(self.life_writer)
        deadline = time.monotonic() + UNDO_SECONDS
        while self.workers:
            end_processes({worker.process for worker in self.workers})
            for worker in list(self.workers):
                if time.monotonic() > deadline:
                    os.kill(worker.process, signal.SIGKILL)
                self.drop_if_ended(worker)
            if self.workers:
                time.sleep(END_POLL_SECONDS)
        os.close(self.life_pipe)

    def drop_if_ended(self, worker: Worker) -> None:
        """Handles what a process has sent by now and, if it has ended, closes its pipe and drops it
        from `workers`. Doesn't wait."""
        # Asked first: a process that ends after this may still send lines.
        has_ended = os.waitpid(worker.process, os.WNOHANG)[0]
        self.read_last_lines(worker)
        if has_ended:
            os.close(worker.pipe)
            self.workers.remove(worker)

    def read_last_lines(self, worker: Worker) -> None:
        """Handles the lines that a process has sent by now, without waiting. Stops at the first
        fault among them, which isn't raised: a fault is known already, or the end is its cause; nor
        is a TooSlow of on_outcome, since no further states are tried."""
        os.set_blocking(worker.pipe, False)
        try:
            while self.read_outcomes(worker):
                pass
        except (OSError, Refused, ProgramFault, RuntimeError, TooSlow):
            return


def fault_fields(fault: BaseException) -> Dict[str, Any]:
    """A fault as fields of JSON, for fault_from_fields() in another process. An OSError with a
    number, a ProgramFault and a Refused keep their type; a subclass of Refused becomes a Refused.
    Of any other fault only its repr() is kept."""
    if isinstance(fault, OSError) and fault.errno is not None:
        file_name = fault.filename
        path = os.fsdecode(file_name) if isinstance(file_name, bytes) else file_name
        return {'fault': 'os', 'what': [fault.errno, fault.strerror, path]}
    if isinstance(fault, ProgramFault):
        return {'fault': 'program', 'what': [fault.status, str(fault)]}
    if isinstance(fault, Refused):
        return {'fault': 'refused', 'what': [str(fault)]}
    return {'fault': 'other', 'what': [repr(fault)]}


def fault_from_fields(fields: Dict[str, Any]) -> Exception:
    """The fault that fault_fields() made these fields of: an OSError, a ProgramFault, a Refused, or
    a RuntimeError for any other type."""
    arguments = fields['what']
    if fields['fault'] == 'os':
        return OSError(*arguments)
    if fields['fault'] == 'program':
        return ProgramFault(arguments[0], arguments[1].encode())
    return Refused(arguments[0]) if fields['fault'] == 'refused' else RuntimeError(arguments[0])
