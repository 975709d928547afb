"""The rows of `serve_bench`: clients of `crashfs serve`, and those of its three bare servers."""

from __future__ import annotations

from contextlib import ExitStack, contextmanager
from typing import Iterator, List

from .programs import Programs, Tally
from .servers import free_address, processor_halves, running_server, serve_words

# How many clients, and whether each has a run of its own or all are on one.
SETTINGS = [(8, 'own'), (8, 'one'), (64, 'own')]
# How the bare servers keep the bytes of writes: `serve_bench` wants the addresses in this order.
KEEPING = ['forgets', 'blocks', 'large']


@contextmanager
def running_servers(programs: Programs, addresses: List[str], client_count: int) -> Iterator[None]:
    """`crashfs serve` at the first of four addresses, and the bare servers of KEEPING at the
    others, for client_count clients each. They run until the `with` ends, and are killed then.
    OSError as running_server()."""
    bench = programs.path('serve_bench')
    with ExitStack() as servers:
        servers.enter_context(running_server(serve_words(programs, addresses[0], client_count)))
        for keeping, address in zip(KEEPING, addresses[1:]):
            servers.enter_context(running_server([bench, address, str(client_count), keeping]))
        yield


def add_serving_rows(programs: Programs, tally: Tally) -> None:
    """Starts all four servers for each setting, and prints the rows that `serve_bench` prints of
    them. If a server has no free port or doesn't listen, or a program can't be started, that is a
    failure of the tally, and the next setting is measured. `crashfs` and `serve_bench` must be
    built."""
    bench = programs.path('serve_bench')
    for client_count, runs in SETTINGS:
        runs_text = 'each on a run of its own' if runs == 'own' else 'all on one run'
        tally.add_line(f'-- {client_count} clients, {runs_text}')
        try:
            addresses = [free_address() for _ in range(len(KEEPING) + 1)]
            with running_servers(programs, addresses, client_count):
                words = [bench, *addresses, str(client_count), runs]
                tally.run_program(words, processor_halves().clients)
        except OSError as error:
            tally.add_failure(str(error))
