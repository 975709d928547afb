"""Runs several tests at once, each in another process: what a test changes of its process, such as
its directory, its umask or a function that it replaces, no test beside it sees."""

from __future__ import annotations

import os
import traceback
import unittest
from multiprocessing import connection, get_context
from multiprocessing.process import BaseProcess
from typing import Any, Callable, Dict, Iterator, List, Sequence, Tuple

# Two for each processor, since half of their time is waiting.
PROCESSES = 2 * len(os.sched_getaffinity(0))
DIGITS = 6

Step = Tuple[str, Tuple[Any, ...]]


class Failed(AssertionError):
    """A failure in another process, with its text."""


class Broken(Exception):
    """The same for any other exception."""


class Named:
    """A test of another process, or a part of one: all that a result asks of it."""

    failureException = AssertionError

    def __init__(self, test: unittest.TestCase) -> None:
        self.name, self.text, self.description = test.id(), str(test), test.shortDescription()

    def __str__(self) -> str:
        return self.text

    def id(self) -> str:
        return self.name

    def shortDescription(self) -> Any:
        return self.description


class Steps:
    """What a test tells its result, kept so that it can be told to another later."""

    failfast = shouldStop = False

    def __init__(self, test: unittest.TestCase) -> None:
        self.steps: List[Step] = []
        test.run(self)  # type: ignore[arg-type]  # it has what a result has

    def __getattr__(self, name: str) -> Callable[..., None]:
        if not name.startswith(('add', 'start', 'stop')):
            raise AttributeError(name)
        return lambda *words: self.steps.append((name, tuple(map(sendable, words))))


def sendable(word: Any) -> Any:
    """What a test says, as another process can have it."""
    if isinstance(word, unittest.TestCase):
        return Named(word)
    if not isinstance(word, tuple):
        return word
    kind, value, trace = word
    while trace is not None and '__unittest' in trace.tb_frame.f_globals:
        trace = trace.tb_next
    text = '\n' + ''.join(traceback.format_exception(kind, value, trace))
    told = Failed if issubclass(kind, AssertionError) else Broken
    return told, told(text), None


class SeveralAtOnce(unittest.TestSuite):
    def run(self, result: unittest.TestResult, debug: bool = False) -> unittest.TestResult:
        tests = list(tests_of(self))
        came: Dict[int, List[Step]] = {}
        place = 0
        for number, steps in outcomes(tests):
            came[number] = steps
            while place in came:
                tell(result, came.pop(place))
                place += 1
        for number in range(place, len(tests)):
            tell(result, came.get(number) or ended(tests[number]))
        return result


def tell(result: unittest.TestResult, steps: Sequence[Step]) -> None:
    for name, words in steps:
        getattr(result, name)(*words)


def ended(test: unittest.TestCase) -> List[Step]:
    named, trouble = Named(test), Broken('the process of the test ended')
    return [
        ('startTest', (named,)),
        ('addError', (named, (Broken, trouble, None))),
        ('stopTest', (named,)),
    ]


def outcomes(tests: Sequence[unittest.TestCase]) -> Iterator[Tuple[int, List[Step]]]:
    """What came of each test, as they end; nothing of one that ended its process."""
    fork = get_context('fork')
    numbers, writing = os.pipe()
    os.write(writing, b''.join(b'%*d' % (DIGITS, number) for number in range(len(tests))))
    os.close(writing)
    processes: Dict[Any, BaseProcess] = {}
    for _ in range(min(PROCESSES, len(tests))):
        end, telling = fork.Pipe(duplex=False)
        processes[end] = fork.Process(target=work, args=(tests, numbers, telling))
        processes[end].start()
        telling.close()
    os.close(numbers)
    while processes:
        for end in connection.wait(processes):  # type: ignore[arg-type]  # pipes, by any name
            try:
                yield end.recv()  # type: ignore[union-attr]  # pipes only
            except EOFError:
                processes.pop(end).join()


def work(tests: Sequence[unittest.TestCase], numbers: int, telling: connection.Connection) -> None:
    """The new process: it runs the next test that no other has taken, until there is none."""
    while word := os.read(numbers, DIGITS):
        telling.send((int(word), Steps(tests[int(word)]).steps))


def tests_of(suite: Any) -> Iterator[unittest.TestCase]:
    for one in suite:
        if isinstance(one, unittest.TestSuite):
            yield from tests_of(one)
        else:
            yield one
