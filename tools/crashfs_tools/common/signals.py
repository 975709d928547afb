"""The signals that stop a command, and time limits."""

from __future__ import annotations

import signal
from contextlib import contextmanager
from typing import Iterable, Iterator, Optional, Set, Tuple, Union

STOPS = (signal.SIGINT, signal.SIGTERM, signal.SIGHUP)


class Stopped(Exception):
    """A signal that asks a command to end was received: `number` is its number."""

    def __init__(self, number: int) -> None:
        super().__init__(signal.Signals(number).name)
        self.number = number

    @property
    def status(self) -> int:
        """The exit status of a command that this signal ends, as a shell has it."""
        return 128 + self.number


def stop_signals() -> Tuple[signal.Signals, ...]:
    """The signals that stop a command here: those of STOPS, without SIGHUP if that is ignored now,
    as under `nohup`."""
    if signal.getsignal(signal.SIGHUP) is signal.SIG_IGN:
        return tuple(number for number in STOPS if number != signal.SIGHUP)
    return STOPS


def ignore_signals(signal_numbers: Iterable[int]) -> None:
    """From here on this process, its forks and programs that it starts ignore these signals.
    ValueError outside the main thread."""
    for signal_number in signal_numbers:
        signal.signal(signal_number, signal.SIG_IGN)


def raise_on_stop_signals() -> None:
    """From here on the first of stop_signals() raises Stopped in the main thread, which must be the
    caller's. That signal also ends a time limit; later ones of STOPS are ignored, so that the
    command can clean up. Programs that are started then ignore them too."""

    def raise_stopped(signal_number: int, _: object) -> None:
        """A handler of the stop signals: ends a time limit, ignores STOPS from then on, and raises
        Stopped."""
        signal.setitimer(signal.ITIMER_REAL, 0)
        ignore_signals(STOPS)
        raise Stopped(signal_number)

    for signal_number in stop_signals():
        signal.signal(signal_number, raise_stopped)


@contextmanager
def stop_signals_blocked() -> Iterator[Set[Union[int, signal.Signals]]]:
    """Within this the signals of STOPS and SIGALRM wait in this thread, since what a handler raises
    in the hooks of a fork is lost. At the end of the `with` they arrive, unless they were blocked
    before. Yields the signals that were blocked before: a process forked within it must set these
    itself, once it is ready for signals."""
    blocked_before = signal.pthread_sigmask(signal.SIG_BLOCK, (*STOPS, signal.SIGALRM))
    try:
        yield blocked_before
    finally:
        signal.pthread_sigmask(signal.SIG_SETMASK, blocked_before)


class TimeUp(Exception):
    """The time limit of a block has passed."""


@contextmanager
def time_limit(seconds: Optional[float]) -> Iterator[None]:
    """Within this, TimeUp is raised in the main thread after so many seconds; None or 0 is no
    limit, and does nothing. ValueError outside the main thread if there is a limit. Its handler of
    SIGALRM stays after the `with`. There is one timer: a limit within another one ends that."""

    def raise_time_up(_: int, __: object) -> None:
        raise TimeUp

    if not seconds:
        yield
        return
    signal.signal(signal.SIGALRM, raise_time_up)
    signal.setitimer(signal.ITIMER_REAL, seconds)
    try:
        yield
    finally:
        signal.setitimer(signal.ITIMER_REAL, 0)
