"""Reads strace's log as a list of calls, each with the lines at which it began and ended."""

from __future__ import annotations

import re
from dataclasses import dataclass, field
from typing import Dict, Iterable, List, Optional, Set

from . import arguments
from .arguments import NO_DESCRIPTOR, Descriptor, LogError
from .log_filter import WRITES, LogFilter

LINE = re.compile(r'^(\d+)\s+(\w+)\((.*)\)\s+= (0x[0-9a-f]+|-?\d+|\?)(.*)$', re.S)
BEGUN = re.compile(r'^(\d+)\s+(\w+)\(')
UNFINISHED = '<unfinished ...>'
# The end of an exec's first part if the thread gets another number, the process's, by the exec.
RENUMBERED = re.compile(r' <pid changed to \d+ \.\.\.>$')
RESUMED = re.compile(r'^(\d+)\s+<\.\.\. (\w+) resumed>(.*)$', re.S)
ENDED = re.compile(r'^(\d+)\s+\+\+\+ (?:exited with|killed by) ')
SUPERSEDED = re.compile(r'^(\d+)\s+\+\+\+ superseded by execve in pid (\d+) \+\+\+')
SHOWN_RESULT = re.compile(r'^<([^>]*)>(\(deleted\))?')
# What comes after the unknown result of a call that a signal interrupted before it did anything.
RESTARTED = re.compile(r'^ ERESTART')

# What strace -k has before each frame, after the call's line.
FRAME = ' > '

FORKS = ('clone', 'clone3', 'fork', 'vfork')

# Names for what is no call, but is in the list of calls.
EXIT = '+exit'
SUPERSEDE = '+supersede'


@dataclass
class Call:
    """A call that returned, or was cut by its thread's end (is_cut), or was interrupted by a signal
    before it did anything (is_interrupted), or an event (EXIT, SUPERSEDE). thread is the number of
    the thread that made it. begin and end are the numbers of its first and last line in the log,
    from 1. result is negative if the call failed, was cut, or was interrupted; result_descriptor is
    the result as a descriptor, with what strace shows for it. frames are the lines of strace -k;
    note is empty until stacks.note_calls() sets it."""

    thread: int
    name: str
    arguments: List[str]
    result: int
    result_descriptor: Descriptor
    begin: int
    end: int
    is_cut: bool = False
    is_interrupted: bool = False
    frames: List[str] = field(default_factory=list)
    note: str = ''

    def argument(self, index: int, default: str = '') -> str:
        """The argument with this index, from 0; the default if the call has fewer arguments."""
        return self.arguments[index] if index < len(self.arguments) else default

    def descriptor(self, index: int = 0) -> Descriptor:
        """The descriptor in the argument with this index, from 0. NO_DESCRIPTOR if there is no such
        argument, or it is no descriptor. LogError as in parse_descriptor()."""
        return arguments.parse_descriptor(self.argument(index))


@dataclass
class Log:
    """The calls of a log, in the order of the lines at which they ended. first_thread is the thread
    that strace started, None if there is no call; ended_threads has those that ended. cut_line is
    the number of the first line that begins a call and isn't whole; None if all are whole."""

    calls: List[Call] = field(default_factory=list)
    ended_threads: List[int] = field(default_factory=list)
    first_thread: Optional[int] = None
    cut_line: Optional[int] = None

    @property
    def is_whole(self) -> bool:
        """Whether the log has the end of the first thread. False if it has no call."""
        return self.first_thread in self.ended_threads


@dataclass
class InterruptedCall:
    """A call whose line was interrupted by another one, and its first line's number (begin).
    first_arguments is the text of that line after the opening bracket, up to the interruption."""

    begin: int
    name: str
    first_arguments: str


class LogReader:
    """Reads a log line by line; a call that another thread's line cuts in two is put together, by
    interrupted_calls, which has the first parts by their threads. Lines that a filter finds
    needless are left out. threads has all threads that made a call or were forked. call_with_frames
    is the call to which the next lines of strace -k are added; None if they are left out."""

    def __init__(self, line_filter: Optional[LogFilter] = None) -> None:
        """Begins an empty log. Without a filter all lines are read."""
        self.log = Log()
        self.filter = line_filter
        self.interrupted_calls: Dict[str, InterruptedCall] = {}
        self.threads: Set[int] = set()
        self.call_with_frames: Optional[Call] = None

    def read_lines(self, lines: Iterable[str]) -> Log:
        """Reads the lines of a log, from its first one, and returns the log. LogError, with the
        line's number, if a line isn't as strace writes it."""
        for number, line in enumerate(lines, 1):
            try:
                self.read_line(number, line.rstrip('\n'))
            except LogError as error:
                raise LogError(f'{error}, in line {number}') from error
        return self.log

    def read_line(self, number: int, line: str) -> None:
        """Reads the line with this number, which has no line feed: a call, a part of one, a frame,
        or an event. Lines must be read in their order. Needless lines, and the end of a call whose
        beginning was needless, are left out. LogError if an argument isn't as strace writes it."""
        if self.filter is not None and self.filter.is_needless(line):
            self.call_with_frames = None
            return
        interrupted = BEGUN.match(line) if line.endswith(UNFINISHED) else None
        resumed = RESUMED.match(line)
        if interrupted:
            thread, name = interrupted.groups()
            first_arguments = line[interrupted.end() : -len(UNFINISHED)]
            self.interrupted_calls[thread] = InterruptedCall(number, name, first_arguments)
        elif resumed:
            self.read_resumed_line(number, resumed)
        else:
            self.read_whole_line(number, number, line)

    def read_resumed_line(self, number: int, resumed: re.Match[str]) -> None:
        """Reads the second part of a call, by the match of RESUMED, together with the first. If
        there is none, as it was needless, or as the thread had another number then, the second part
        and its frames are left out. If the thread's first part is of another call, an exec by
        another thread cut that call: it is read as cut. LogError as in read_line()."""
        call = self.interrupted_calls.pop(resumed[1], None)
        if call is None:
            self.call_with_frames = None
        else:
            end = resumed[3] if call.name == resumed[2] else f'{UNFINISHED}) = ?'
            whole_line = f'{resumed[1]} {call.name}({call.first_arguments}{end}'
            self.read_whole_line(call.begin, number, whole_line)

    def read_whole_line(self, begin: int, end: int, line: str) -> None:
        """Reads a line that isn't needless, and wasn't interrupted, or whose parts are joined.
        begin and end are the numbers of its first and last part. LogError as in read_line()."""
        match = LINE.match(line)
        if match:
            self.add_call(match, begin, end)
            if self.filter is not None:
                self.filter.learn_from_result(match[2], line)
        elif not line.startswith(FRAME):
            self.add_event(end, line)
        elif self.call_with_frames is not None:
            self.call_with_frames.frames.append(line[len(FRAME) :])

    def add_call(self, match: re.Match[str], begin: int, end: int) -> None:
        """Adds a whole call, by the match of LINE, and the numbers of its first and last line. Adds
        its thread, and the one that a fork made, to `threads`; the thread of the first call becomes
        the log's first_thread. The next frames are the call's. LogError if an argument isn't as
        strace writes it."""
        thread, name, text, result, tail = match.groups()
        self.threads.add(int(thread))
        if self.log.first_thread is None:
            self.log.first_thread = int(thread)
        if name in FORKS and result.isdigit():
            self.threads.add(int(result))
        shown = SHOWN_RESULT.match(tail)
        number = -1 if result == '?' else arguments.parse_integer(result)
        is_interrupted = result == '?' and RESTARTED.match(tail) is not None
        shown_text = arguments.parse_shown_text(shown[1]) if shown else None
        self.call_with_frames = Call(
            thread=int(thread),
            name=name,
            arguments=packed_arguments(name, text),
            result=number,
            result_descriptor=Descriptor(number, shown_text, is_deleted=bool(shown and shown[2])),
            begin=begin,
            end=end,
            is_cut=result == '?' and not is_interrupted,
            is_interrupted=is_interrupted,
        )
        self.log.calls.append(self.call_with_frames)

    def add_event(self, number: int, line: str) -> None:
        """Adds the event that a line reports: a thread ended, or got another number by an exec. The
        number of the first line that only begins a call becomes the log's cut_line, unless the line
        ends as RENUMBERED: then the call is the exec of the next SUPERSEDE. Any other line is left
        out, and so are the frames after each of these lines."""
        self.call_with_frames = None
        ended, superseded = ENDED.match(line), SUPERSEDED.match(line)
        if ended:
            self.log.ended_threads.append(int(ended[1]))
            self.add_event_call(number, int(ended[1]), EXIT, 0)
        elif superseded:
            self.add_event_call(number, int(superseded[1]), SUPERSEDE, int(superseded[2]))
        elif self.log.cut_line is None and BEGUN.match(line) and not RENUMBERED.search(line):
            self.log.cut_line = number

    def add_event_call(self, number: int, thread: int, name: str, result: int) -> None:
        """Adds an event of a thread, on one line, as a call without arguments, whose name is EXIT
        or SUPERSEDE. The result is 0 for EXIT; for SUPERSEDE it is the number that the thread had
        before."""
        event = Call(thread, name, [], result, NO_DESCRIPTOR, begin=number, end=number)
        self.log.calls.append(event)


def packed_arguments(name: str, text: str) -> List[str]:
    """The arguments of a call with this name, from the text between its brackets. The second
    argument of a call of WRITES is packed by pack_word(), since most of a log is bytes that are
    written."""
    words = arguments.split_arguments(text)
    if name in WRITES and len(words) > 1:
        words[1] = arguments.pack_word(words[1])
    return words


def read_log(lines: Iterable[str], line_filter: Optional[LogFilter] = None) -> Log:
    """The log with these lines, from its first one on, without those that the filter finds
    needless; without a filter all are read. LogError as in LogReader.read_lines()."""
    return LogReader(line_filter).read_lines(lines)
