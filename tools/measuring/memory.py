"""How much memory a server takes for idle connections, for as many runs as it allows, and for a
full journal.

Each is measured on a new server. What that has in memory when it begins to listen isn't counted.
"""

from __future__ import annotations

import subprocess
from contextlib import ExitStack, closing
from typing import Callable, List, NamedTuple, Optional, Tuple

from .client import Client, ServerRefused, write_request
from .programs import Programs, Tally
from .servers import free_address, resident_bytes, running_server, serve_words

CONNECTIONS = 64
RUNS = 4_096
BLOCK = 4_096
# Writes that are sent before a reply is waited for: they fit the buffers of both ends.
BATCH = 8
# More than a journal takes.
WRITES = 70_000
# An idle connection may take so many bytes.
IDLE_BYTES = 200_000


def open_clients(address: str, count: int, opened: ExitStack) -> List[Client]:
    """Opens `count` connections and adds them to `opened`, which closes them at its end, also if a
    later one can't be opened. Errors as Client()."""
    return [opened.enter_context(closing(Client(address))) for _ in range(count)]


def fill_with_connections(address: str, connection_count: int, opened: ExitStack) -> int:
    """Opens connection_count connections, which `opened` closes, attaches each to the same run,
    leaves them idle, and returns connection_count. ServerRefused if the server refuses a connection
    or an attach, OSError if a connection can't be made or ends."""
    for client in open_clients(address, connection_count, opened):
        client.attach(0, '0/x')
    return connection_count


def fill_with_runs(address: str, run_count: int, connection_count: int, opened: ExitStack) -> int:
    """Attaches a user to each of run_count runs of one state, by connection_count connections in
    turn, which `opened` closes, and returns run_count. Errors as fill_with_connections()."""
    clients = open_clients(address, connection_count, opened)
    for run in range(run_count):
        clients[run % connection_count].attach(run // connection_count, f'0/r{run}')
    return run_count


def fill_with_writes(address: str, write_count: int, opened: ExitStack) -> int:
    """Writes blocks to a file of a run, by a connection that `opened` closes, until the server
    refuses a write, since the run's journal is full, or has granted write_count writes. Returns
    how many it granted: up to BATCH - 1 more, since they are sent in batches. ServerRefused if no
    write is granted; other errors as fill_with_connections()."""
    (client,) = open_clients(address, 1, opened)
    client.attach(0, '0/x')
    client.open(0, 1, 'f')
    requests = [write_request(1, b'w' * BLOCK)] * BATCH
    granted_count = 0
    while granted_count < write_count:
        granted_of_batch = client.ask_all(requests)
        granted_count += granted_of_batch
        if granted_of_batch < len(requests):
            break
    if not granted_count:
        raise ServerRefused('no write was granted')
    return granted_count


def measure_new_server(
    programs: Programs, fill: Callable[[str, ExitStack], int], connection_count: int
) -> Tuple[int, int]:
    """Starts a server that takes connection_count connections, calls `fill` with its address and a
    stack as measure_growth() does, kills it, and returns what measure_growth() returned. OSError as
    free_address() and running_server(), or if the server ends too early; errors of `fill` are
    raised."""
    address = free_address()
    with running_server(serve_words(programs, address, connection_count)) as server:
        return measure_growth(server, lambda opened: fill(address, opened))


def measure_growth(
    server: subprocess.Popen[str], fill: Callable[[ExitStack], int]
) -> Tuple[int, int]:
    """By how many bytes a server grows while `fill` fills it, and the count that `fill` returns.
    The growth is below 0 if the system takes more pages of the server away meanwhile. What `fill`
    adds to the stack that it gets is closed at the end, also if it raises an error, which is
    raised. OSError if the server ends before its memory is read."""
    bytes_before = resident_bytes(server)
    with ExitStack() as opened:
        count = fill(opened)
        growth = resident_bytes(server) - bytes_before
    return growth, count


class MemoryCase(NamedTuple):
    """A way to fill a server, and the labels and the bound of its two rows: of the memory of all
    things that fill it, and of that of each thing."""

    # As measure_new_server() takes it: it returns how many things it made.
    fill: Callable[[str, ExitStack], int]
    connection_count: int
    # The count is put in the place of `{count}`.
    label_of_all: str
    label_of_each: str
    # How many bytes of each thing aren't counted, and how many others it may have at most.
    uncounted_bytes: int = 0
    most_bytes: Optional[float] = None


CASES = (
    MemoryCase(
        lambda address, opened: fill_with_connections(address, CONNECTIONS, opened),
        CONNECTIONS,
        '{count} idle connections',
        'each',
        most_bytes=IDLE_BYTES,
    ),
    MemoryCase(
        lambda address, opened: fill_with_runs(address, RUNS, CONNECTIONS, opened),
        CONNECTIONS,
        f'{{count}} runs with a user each, by {CONNECTIONS} connections',
        'each, with its part of the connections',
    ),
    MemoryCase(
        lambda address, opened: fill_with_writes(address, WRITES, opened),
        1,
        'a full journal, with {count} writes of 4 kB',
        'each write, beside its bytes',
        uncounted_bytes=BLOCK,
    ),
)


def add_case_rows(programs: Programs, tally: Tally, case: MemoryCase) -> None:
    """Measures a case on a new server, and prints its two rows. ServerRefused or OSError if the
    server fails; no row is printed then."""
    growth, count = measure_new_server(programs, case.fill, case.connection_count)
    tally.add_figure(case.label_of_all.format(count=count), growth / 1e6, 'MB')
    bytes_of_each = growth / count - case.uncounted_bytes
    tally.add_figure(case.label_of_each, bytes_of_each, 'bytes', case.most_bytes)


def add_memory_rows(programs: Programs, tally: Tally) -> None:
    """Measures and prints the rows of all CASES, each on a new server. If a server fails, that is a
    failure of the tally, and the next case is measured. The program `crashfs` must be built."""
    for case in CASES:
        try:
            add_case_rows(programs, tally, case)
        except (OSError, ServerRefused) as error:
            tally.add_failure(str(error))
