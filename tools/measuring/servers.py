"""Servers that run for a benchmark, and which processors they and their clients use."""

from __future__ import annotations

import itertools
import os
import socket
import subprocess
from contextlib import contextmanager
from pathlib import Path
from typing import Iterator, List, NamedTuple

from .programs import Programs, start_program


class ProcessorHalves(NamedTuple):
    """The numbers of the processors for servers, and of those for clients."""

    servers: List[int]
    clients: List[int]


def processor_halves() -> ProcessorHalves:
    """Half each of the processors that this process may use. Of an odd number the clients have one
    more; a single processor is for both."""
    processors = sorted(os.sched_getaffinity(0))
    half = len(processors) // 2
    return ProcessorHalves(processors[:half] or processors, processors[half:])


# The second number of the hosts of free_address(), which it takes in turn.
_HOSTS = itertools.cycle(range(1, 255))


def free_address() -> str:
    """HOST:PORT on this machine, at which nobody listens. The host is one of 127.0.0.0/8 that the
    next 253 calls, and processes whose ids have other low 16 bits, don't use: so nobody else takes
    the port before a server does. OSError if no port is free."""
    process_id = os.getpid()
    host = f'127.{next(_HOSTS)}.{process_id >> 8 & 255}.{process_id & 255}'
    with socket.socket() as listener:
        listener.bind((host, 0))
        return f'{host}:{listener.getsockname()[1]}'


@contextmanager
def running_server(words: List[str]) -> Iterator[subprocess.Popen[str]]:
    """A server, given by its command line, which runs on the processors for servers until the
    `with` ends, and is killed then. The `with` begins when the server has printed the line
    `listening ..`, however long that takes. OSError if the server can't be started, or ends or
    prints another line first. What it prints later isn't read: once the pipe is full, the server
    waits."""
    server = start_program(words, processor_halves().servers)
    assert server.stdout is not None
    try:
        line = server.stdout.readline()
        if not line.startswith('listening '):
            # It may close the pipe a moment before it ends.
            status = server.poll() if line else server.wait()
            raise OSError(f'{words[0]} does not listen: {line!r}, status {status}')
        yield server
    finally:
        server.kill()
        server.wait()
        server.stdout.close()


def serve_words(programs: Programs, address: str, connection_count: int) -> List[str]:
    """The command line of `crashfs serve` for the only state of a small trace, with one worker, for
    connection_count connections at once."""
    examples = programs.top / 'examples'
    return [
        programs.path('crashfs'),
        'serve',
        '--users',
        str(examples / 'users'),
        '--trace',
        str(examples / 'start.trace'),
        '--listen',
        address,
        '--workers',
        '1',
        '--connections',
        str(connection_count),
        '--ready',
    ]


def resident_bytes(server: subprocess.Popen[str]) -> int:
    """How many bytes a server has in memory: VmRSS of proc(5). OSError if the server has ended."""
    for line in Path(f'/proc/{server.pid}/status').read_text().splitlines():
        if line.startswith('VmRSS:'):
            return int(line.split()[1]) * 1024
    # An ended process that nobody has waited for still has the file, but not this line.
    raise OSError(f'the server, process {server.pid}, has ended')
