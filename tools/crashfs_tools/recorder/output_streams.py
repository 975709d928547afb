"""The streams that COMMAND writes to: those that acknowledge something, and others.

Some streams acknowledge by lines: each counts from the write that ends it. Others acknowledge by
writes, as binary protocols do: each write counts.
"""

from __future__ import annotations

from dataclasses import dataclass, field
from enum import Enum
from typing import Dict, FrozenSet, Iterable, Iterator, List, NamedTuple, Optional, Set, Tuple

from . import arguments
from .log_filter import WRITES
from .strace_log import Call

OUTPUT, ERRORS = 'standard output', 'standard error'
STANDARD_STREAM_NAMES = {1: OUTPUT, 2: ERRORS}
ACCEPTS = ('accept', 'accept4')
SENDS = ('sendto', 'sendmsg', 'sendmmsg')


class AcknowledgingDescriptors(NamedTuple):
    """What acknowledges something (--say-fd): the descriptors with these numbers, by default
    standard output, and with has_connections each connection that COMMAND accepts."""

    numbers: Tuple[int, ...] = (1,)
    has_connections: bool = False

    @property
    def nonstandard_numbers(self) -> List[int]:
        """The numbers above 2: those of no standard stream."""
        return [number for number in self.numbers if number > 2]


class SayEach(Enum):
    """What counts as one acknowledgement: a line or a write (--say-each)."""

    LINE = 'line'
    WRITE = 'write'


@dataclass(eq=False)
class OutputStream:
    """A stream that COMMAND writes to; is_acknowledged means that its texts acknowledge something.

    pieces has the bytes of a line that has no end yet, and last_change_count is how many changes
    the recording had at the newest of them. text_count counts the texts that were completed, and
    write_count the writes that completed some. gap_count is how often changes came between two
    pieces of the newest line, and most_gaps the largest such number of any line. is_held means that
    changes came after the beginning of the last line, which has no line feed; it is set at the end
    of the session."""

    name: str
    is_acknowledged: bool
    say_each: SayEach = SayEach.LINE
    pieces: List[bytes] = field(default_factory=list)
    text_count: int = 0
    write_count: int = 0
    last_change_count: int = 0
    gap_count: int = 0
    most_gaps: int = 0
    is_held: bool = False

    def complete_texts(self, data: bytes, change_count: int) -> List[bytes]:
        """The texts that a write of these bytes completes: lines, or the whole write as one line.
        Counts these texts, and the write if it completes some. change_count is how many changes the
        recording had before the write. A write of no bytes changes nothing, and completes none."""
        if not data:
            return []
        if self.say_each is SayEach.WRITE:
            texts = [line_of_write(data)]
        else:
            self.count_gap(change_count)
            texts = self.complete_lines(data)
        self.text_count += len(texts)
        self.write_count += bool(texts)
        return texts

    def count_gap(self, change_count: int) -> None:
        """Counts a gap, in gap_count and most_gaps, if there are pieces, and files were changed
        since the newest of them: the recording has change_count changes now. If there are no
        pieces, a line without gaps begins."""
        if not self.pieces:
            self.gap_count = 0
        elif change_count != self.last_change_count:
            self.gap_count += 1
            self.most_gaps = max(self.most_gaps, self.gap_count)
        self.last_change_count = change_count

    def complete_lines(self, data: bytes) -> List[bytes]:
        """The lines that a write completes, each without its line feed and a carriage return before
        that; what is after the last line feed waits in `pieces`."""
        ended_lines, line_feed, last_piece = data.rpartition(b'\n')
        if not line_feed:
            self.pieces.append(data)
            return []
        lines = b''.join([*self.pieces, ended_lines]).split(b'\n')
        self.pieces = [last_piece] if last_piece else []
        return [line[:-1] if line.endswith(b'\r') else line for line in lines]


def line_of_write(data: bytes) -> bytes:
    r"""The bytes of a write as one line: without a line feed and a carriage return at the end, and
    with escapes (`\n`, `\r`) for others inside it, and (`\x80`) for bytes that aren't UTF-8."""
    for end in (b'\n', b'\r'):
        data = data[:-1] if data.endswith(end) else data
    text = data.decode('utf-8', 'backslashreplace')
    return text.replace('\n', '\\n').replace('\r', '\\r').encode()


@dataclass
class OutputStreams:
    """All streams of a session. inherited_streams has, by their descriptors, those that COMMAND may
    start with: standard output and error, and those above 2 that --say-fd names. streams_by_text
    has streams by the text that strace shows for a descriptor, as `pipe:[7]`, so that all
    descriptors of one pipe are of one stream; a device's text has the descriptor's number before.

    say_each is what counts as an acknowledgement; None means lines, but writes for a connection
    that isn't among line_connections. These are the connections over which a line feed is sent, as
    strace shows them; they must be set before add_connection() is called."""

    acknowledging_descriptors: AcknowledgingDescriptors = AcknowledgingDescriptors()
    say_each: Optional[SayEach] = None
    line_connections: FrozenSet[str] = frozenset()
    streams_by_text: Dict[str, OutputStream] = field(default_factory=dict)
    inherited_streams: Dict[int, OutputStream] = field(init=False)

    def __post_init__(self) -> None:
        """Makes inherited_streams. Standard output and error are among them even if they
        acknowledge nothing."""
        numbers = [1, 2, *self.acknowledging_descriptors.nonstandard_numbers]
        self.inherited_streams = {number: self.new_stream(number) for number in numbers}

    def new_stream(self, number: int) -> OutputStream:
        """A new stream of the descriptor with this number, which isn't added. It acknowledges
        something if --say-fd names the descriptor: by lines, unless --say-each says otherwise."""
        return OutputStream(
            STANDARD_STREAM_NAMES.get(number, f'descriptor {number}'),
            is_acknowledged=number in self.acknowledging_descriptors.numbers,
            say_each=self.say_each or SayEach.LINE,
        )

    def is_named_nonstandard(self, number: int) -> bool:
        """Whether --say-fd names the descriptor with this number, and it is above 2."""
        return number in self.acknowledging_descriptors.nonstandard_numbers

    def add_text_of_output(self, text: Optional[str]) -> None:
        """Adds what strace shows for a descriptor of COMMAND's standard output, so that the stream
        is found by this text. Nothing unless it is the text of a pipe, since others may write to a
        file or a terminal too; nor if another stream has this text already."""
        if text is not None and text.startswith('pipe:'):
            self.streams_by_text.setdefault(text, self.inherited_streams[1])

    def add_connection(self, text: Optional[str]) -> None:
        """Adds the stream of a connection that COMMAND accepted, if --say-fd asks for connections.
        `text` is what strace shows for it, None if nothing: then no stream is added. An earlier
        stream with this text is replaced."""
        if self.acknowledging_descriptors.has_connections and text is not None:
            default = SayEach.LINE if text in self.line_connections else SayEach.WRITE
            self.streams_by_text[text] = OutputStream(
                'a socket', is_acknowledged=True, say_each=self.say_each or default
            )

    def find_or_make_stream(self, number: int, text: Optional[str]) -> Optional[OutputStream]:
        """The stream of a descriptor, by its number and the text that strace shows for it, None if
        nothing. A stream that isn't known is made if is_named_nonstandard(); None for any other,
        and if strace shows nothing. Two descriptors of a device may be two streams."""
        if text is None:
            return None
        if not self.is_named_nonstandard(number):
            return self.streams_by_text.get(text)
        key = f'{number}<{text}>' if text.startswith('/dev/') else text
        return self.streams_by_text.setdefault(key, self.new_stream(number))

    def all_streams(self) -> Iterator[OutputStream]:
        """Yields each stream once, even if it is there by several texts: first those that
        COMMAND may start with, then the others as they came."""
        yield from dict.fromkeys([*self.inherited_streams.values(), *self.streams_by_text.values()])


def connections_with_lines(calls: Iterable[Call]) -> FrozenSet[str]:
    """The connections, as strace shows them, over which a line feed was sent after they were
    accepted; the calls are in the log's order. A call whose bytes the log lacks doesn't count.
    LogError as in sent_bytes()."""
    accepted_connections: Set[str] = set()
    line_connections: Set[str] = set()
    for call in calls:
        if call.name in ACCEPTS and call.result_descriptor.text is not None:
            accepted_connections.add(call.result_descriptor.text)
        elif call.name in WRITES or call.name in SENDS:
            text = call.descriptor().text
            if text is None or text not in accepted_connections or text in line_connections:
                continue
            if has_line_feed(call):
                line_connections.add(text)
    return frozenset(line_connections)


def has_line_feed(call: Call) -> bool:
    """Whether the bytes of a call of WRITES or SENDS have a line feed; False if the log lacks some
    of them. LogError as in sent_bytes()."""
    return b'\n' in (sent_bytes(call) or b'')


def sent_bytes(call: Call) -> Optional[bytes]:
    """The bytes that a call of WRITES or SENDS has written or sent; empty if the call failed. None
    if strace doesn't show all bytes of the call, also if it failed: it cut them, or printed their
    address; and for a sendmmsg that failed. LogError if an argument isn't as strace writes it."""
    word = call.argument(1)
    if call.name == 'sendmmsg':
        return arguments.parse_messages(word)
    is_string = call.name in ('write', 'pwrite64', 'sendto')
    data = arguments.parse_bytes(word) if is_string else arguments.parse_vector(word)
    if data is None or len(data) < call.result:
        return None
    return data[: max(0, call.result)]
