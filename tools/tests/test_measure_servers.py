"""What `measure` does with servers: their memory, addresses and processors."""

from __future__ import annotations

import contextlib
import io
import os
import socket
import subprocess
import sys
import threading
import unittest
from contextlib import ExitStack
from pathlib import Path
from typing import List
from unittest import mock

from measuring.client import Client, ServerRefused, message_bytes, text_field, write_request
from measuring.memory import (
    add_memory_rows,
    fill_with_connections,
    fill_with_runs,
    fill_with_writes,
    measure_growth,
)
from measuring.programs import Programs, Tally
from measuring.servers import free_address, processor_halves, running_server
from measuring.serving import add_serving_rows

from .fake_server import KEPT
from .support import TOOLS, InFolder
from .test_measure import FAKE, WithPrograms


def answer(listener: socket.socket, replies: bytes) -> None:
    """Accepts a connection, sends it these bytes and nothing else, and reads it to its end."""
    connection, _ = listener.accept()
    with connection:
        connection.sendall(replies)
        connection.shutdown(socket.SHUT_WR)
        while connection.recv(1 << 16):
            pass


class Memory(InFolder):
    """A server is brought to each state, and its memory is read then."""

    def grown(self, fill) -> int:
        address = free_address()
        with running_server([FAKE, address, '9', 'forgets']) as server:
            more, count = measure_growth(server, lambda opened: fill(address, opened))
        # Not all: a system that lacks memory takes other pages of a server away meanwhile.
        self.assertGreater(more, KEPT // 2)
        return count

    def test_a_server_of_another_version_is_refused(self) -> None:
        address = free_address()
        with running_server([FAKE, address, '9', 'unknown']):
            with self.assertRaisesRegex(ServerRefused, "the server speaks b'unknown', not 9P2000"):
                fill_with_connections(address, 1, ExitStack())

    def test_a_reply_without_its_end_is_a_fault(self) -> None:
        version = message_bytes(101, b'\0\0\1\0' + text_field('9P2000'))
        attached = message_bytes(105, 13 * b'q')
        with socket.create_server(('127.0.0.1', 0)) as listener:
            for end in range(len(attached)):
                words = (listener, version + attached[:end])
                threading.Thread(target=answer, args=words, daemon=True).start()
                client = Client(f'127.0.0.1:{listener.getsockname()[1]}')
                self.addCleanup(client.close)
                with self.assertRaisesRegex(OSError, 'the server has ended the connection'):
                    client.attach(0, '0/x')

    def test_connections_come_to_a_run_and_wait(self) -> None:
        self.assertEqual(
            self.grown(lambda address, opened: fill_with_connections(address, 3, opened)), 3
        )

    def test_runs_are_spread_over_connections(self) -> None:
        self.assertEqual(
            self.grown(lambda address, opened: fill_with_runs(address, 7, 3, opened)), 7
        )

    def test_clients_attach_to_one_run_or_to_runs_in_turn(self) -> None:
        attach, open_file = mock.call.attach, mock.call.open
        for fill, calls in (
            (lambda opened: fill_with_connections('', 2, opened), [[attach(0, '0/x')]] * 2),
            (
                lambda opened: fill_with_runs('', 3, 2, opened),
                [[attach(0, '0/r0'), attach(1, '0/r2')], [attach(0, '0/r1')]],
            ),
            (
                lambda opened: fill_with_writes('', 9, opened),
                [
                    [
                        *(attach(0, '0/x'), open_file(0, 1, 'f')),
                        *[mock.call.ask_all([write_request(1, b'w' * 4096)] * 8)] * 2,
                    ]
                ],
            ),
        ):
            clients = [mock.Mock(**{'ask_all.side_effect': len}) for _ in calls]
            with mock.patch('measuring.memory.Client', side_effect=clients):
                with ExitStack() as opened:
                    fill(opened)
            self.assertEqual(
                [client.mock_calls for client in clients],
                [[*client_calls, mock.call.close()] for client_calls in calls],
            )

    def test_writes_go_on_until_one_is_refused(self) -> None:
        self.assertEqual(
            self.grown(lambda address, opened: fill_with_writes(address, 1_000, opened)), 10
        )

    def test_a_journal_that_takes_no_write_is_a_fault(self) -> None:
        address = free_address()
        with running_server([FAKE, address, '9', 'full']), ExitStack() as opened:
            with self.assertRaisesRegex(ServerRefused, 'no write was granted'):
                fill_with_writes(address, 8, opened)

    def test_each_case_has_a_row_of_all_and_a_row_of_each(self) -> None:
        with mock.patch('measuring.memory.measure_new_server', return_value=(8_192_000, 1_000)):
            with contextlib.redirect_stdout(io.StringIO()) as out:
                add_memory_rows(Programs(Path(self.folder)), Tally(benchmark='memory'))
        self.assertEqual(
            out.getvalue().splitlines(),
            [
                '1000 idle connections: 8.192 MB',
                'each: 8192.000 bytes, within (at most 200000)',
                '1000 runs with a user each, by 64 connections: 8.192 MB',
                'each, with its part of the connections: 8192.000 bytes',
                'a full journal, with 1000 writes of 4 kB: 8.192 MB',
                'each write, beside its bytes: 4096.000 bytes',
            ],
        )

    def test_connections_are_closed_after_a_fault(self) -> None:
        clients: List[Client] = []

        def connect(address: str) -> Client:
            if len(clients) == 3:
                raise OSError('no more')
            clients.append(Client(address))
            return clients[-1]

        address = free_address()
        with running_server([FAKE, address, '9', 'forgets']) as server:
            with mock.patch('measuring.memory.Client', connect):
                with self.assertRaisesRegex(OSError, 'no more'):
                    measure_growth(server, lambda opened: fill_with_runs(address, 7, 4, opened))
        self.assertEqual([client.stream.fileno() for client in clients], [-1] * 3)

    def test_writes_end_where_none_is_refused(self) -> None:
        self.assertEqual(
            self.grown(lambda address, opened: fill_with_writes(address, 8, opened)), 8
        )


class EndedServers(WithPrograms):
    def test_a_server_that_ends_when_it_is_full_is_a_failure_and_has_no_row(self) -> None:
        def end_and_measure(server, fill):
            def fill_and_end(opened):
                count = fill(opened)
                server.kill()
                os.waitid(os.P_PID, server.pid, os.WEXITED | os.WNOWAIT)
                return count

            return measure_growth(server, fill_and_end)

        self.program('crashfs', ['#!/bin/sh', f'exec {FAKE} "$@"'])
        few = {'CONNECTIONS': 3, 'RUNS': 6, 'WRITES': 8}
        tally = Tally(benchmark='memory')
        with mock.patch.multiple('measuring.memory', measure_growth=end_and_measure, **few):
            with contextlib.redirect_stdout(io.StringIO()) as out:
                add_memory_rows(Programs(Path(self.folder)), tally)
        self.assertRegex(
            out.getvalue(), r'^(memory failed: the server, process \d+, has ended\n){3}$'
        )
        self.assertEqual((tally.failed, tally.within_count), (['memory'] * 3, 0))


class NoPort(unittest.TestCase):
    def test_a_server_that_finds_no_port_is_a_failure_of_its_setting(self) -> None:
        tally = Tally(benchmark='serve_bench')
        no_port = mock.Mock(side_effect=OSError('no port is free'))
        with mock.patch('measuring.serving.free_address', no_port):
            with contextlib.redirect_stdout(io.StringIO()) as out:
                add_serving_rows(Programs(TOOLS.parent), tally)
        self.assertEqual(out.getvalue().count('serve_bench failed: no port is free\n'), 3)
        self.assertEqual(tally.failed, ['serve_bench'] * 3)


class Servers(unittest.TestCase):
    def test_a_server_that_closes_its_output_before_it_ends_has_a_status(self) -> None:
        words = ['sh', '-c', 'exec >&-; sleep 0.2; exit 7']
        with self.assertRaisesRegex(OSError, "sh does not listen: '', status 7"):
            with running_server(words):
                pass


class Addresses(unittest.TestCase):
    def test_no_two_have_the_same_host(self) -> None:
        hosts = [free_address().partition(':')[0] for _ in range(9)]
        ran = subprocess.run(
            [
                sys.executable,
                '-c',
                'from measuring.servers import free_address\n'
                'for _ in range(9): print(free_address().partition(":")[0])',
            ],
            cwd=TOOLS,
            check=True,
            capture_output=True,
            text=True,
        )
        self.assertEqual(len({*hosts, *ran.stdout.split()}), 18, ran.stdout)


class Processors(InFolder):
    def test_servers_and_clients_have_half_of_the_processors_each(self) -> None:
        for processors, servers, clients in (
            ({5}, [5], [5]),
            ({3, 7}, [3], [7]),
            ({8, 1, 4}, [1], [4, 8]),
        ):
            with mock.patch('os.sched_getaffinity', return_value=processors):
                self.assertEqual(processor_halves(), (servers, clients))


if __name__ == '__main__':
    unittest.main()
