"""What COMMAND prints: a pipe, of which the end is kept."""

from __future__ import annotations

import os

TAIL_BYTES = 1 << 16
# No recovery has more to say; one that prints without end must not fill the memory.
MOST_BYTES = 16 << 20


class Output:
    """A pipe for what one run prints. Pass write_end to the command, and then call close_writing();
    read_end can be polled. byte_count is how many bytes were read, and tail has the last
    TAIL_BYTES of them."""

    def __init__(self) -> None:
        """Opens the pipe, whose two ends close() closes: call it in any case. OSError if too many
        files are open."""
        self.read_end, self.write_end = os.pipe2(os.O_CLOEXEC)
        os.set_blocking(self.read_end, False)
        self.tail = b''
        self.byte_count = 0

    def read_piece(self) -> bool:
        """Reads a piece of what was printed, and adds it to byte_count and tail. Returns False at
        the end of the pipe. BlockingIOError if nothing is there yet."""
        piece = os.read(self.read_end, TAIL_BYTES)
        self.byte_count += len(piece)
        self.tail = (self.tail + piece)[-TAIL_BYTES:]
        return bool(piece)

    def read_tail(self) -> bytes:
        """Reads all that was printed by now, without waiting, or less if that is a flood. Returns
        the last TAIL_BYTES of all bytes that were read, also by earlier calls."""
        try:
            while self.byte_count <= MOST_BYTES and self.read_piece():
                pass
        except BlockingIOError:
            pass
        return self.tail

    @property
    def is_flood(self) -> bool:
        """Whether more than MOST_BYTES were read."""
        return self.byte_count > MOST_BYTES

    def close_writing(self) -> None:
        """Closes write_end in this process, if it is open: only then a reader finds the end of the
        pipe, when the command has ended."""
        if self.write_end >= 0:
            os.close(self.write_end)
            self.write_end = -1

    def close(self) -> None:
        """Closes both ends of the pipe. Call it once."""
        self.close_writing()
        os.close(self.read_end)
