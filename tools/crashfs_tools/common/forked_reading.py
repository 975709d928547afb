"""The second reading as a program, in a fork of this process: it takes no time to start."""

from __future__ import annotations

import os
import signal
import sys
from contextlib import ExitStack
from typing import BinaryIO, Callable, List, NoReturn, Optional

from .descendants import die_with_parent
from .streams import open_pipe
from .signals import STOPS, stop_signals_blocked

INTERNAL_ERROR = 70


class ForkedReading:
    """A command of the second reading that runs in a fork of this process. It has the attributes
    and methods of subprocess.Popen that are used; both outputs are pipes. The words are those of
    the program `crashfs`."""

    def __init__(self, words: List[str]) -> None:
        """Starts the command, with standard input empty. OSError if the system can't fork, or has
        no more pipes: then no pipe stays open. The other open files of this process are open in the
        fork too."""
        # Imported before the fork, so that no fork has to do it; main() imports `archive` late.
        from crashfs_tools.reading import archive, main

        del archive
        with ExitStack() as opened, stop_signals_blocked() as blocked_before:
            out_reader, out_writer = open_pipe(opened)
            err_reader, err_writer = open_pipe(opened)
            self.process = os.fork()
            opened.pop_all()
            if self.process == 0:
                for stop in STOPS:
                    signal.signal(stop, signal.SIG_DFL)
                signal.pthread_sigmask(signal.SIG_SETMASK, blocked_before)
                # Its writes fail once nobody reads its outputs: it mustn't be a reader itself.
                os.close(out_reader)
                os.close(err_reader)
                run_and_exit(main.main, words, out_writer, err_writer)
        os.close(out_writer)
        os.close(err_writer)
        self.stdout: BinaryIO = open(out_reader, 'rb')
        self.stderr: BinaryIO = open(err_reader, 'rb')
        self.returncode: Optional[int] = None

    def wait(self) -> int:
        """Waits for the process to end, sets `returncode`, and returns it: the status, negative for
        a signal; or -SIGKILL if something else in this process has waited for the process. The
        outputs aren't read: if more is printed than their pipes can hold, it waits forever. Later
        calls return the same at once."""
        if self.returncode is None:
            try:
                wait_status = os.waitpid(self.process, 0)[1]
                self.returncode = os.waitstatus_to_exitcode(wait_status)
            except ChildProcessError:
                # end_children() waits for all children of this process, so it may have the status.
                self.returncode = -signal.SIGKILL
        return self.returncode

    def kill(self) -> None:
        """Kills the process, unless wait() has returned its status. The caller must still call
        wait()."""
        if self.returncode is None:
            try:
                os.kill(self.process, signal.SIGKILL)
            except ProcessLookupError:
                pass


def run_and_exit(
    main: Callable[[List[str]], int], words: List[str], out_writer: int, err_writer: int
) -> NoReturn:
    """In the new process, which is killed when the thread that started it ends: calls the main() of
    a command with these words, with these pipes as its two outputs and no input, and ends the
    process with the status that it returns. If an exception isn't caught, a traceback is printed,
    and the status is INTERNAL_ERROR."""
    status = INTERNAL_ERROR
    try:
        die_with_parent()
        os.dup2(os.open(os.devnull, os.O_RDONLY), 0)
        os.dup2(out_writer, 1)
        os.dup2(err_writer, 2)
        sys.stdout = open(1, 'w', encoding='utf-8', errors='surrogateescape', newline='\n')
        sys.stderr = open(2, 'w', encoding='utf-8', errors='backslashreplace')
        status = main(words)
        sys.stdout.flush()
        sys.stderr.flush()
    except BaseException:
        import traceback

        traceback.print_exc()
    finally:
        os._exit(status)
