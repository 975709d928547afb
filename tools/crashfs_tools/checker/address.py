"""Where a server listens."""

from __future__ import annotations

from typing import NamedTuple

from crashfs_tools.common.command import Refused


class Address(NamedTuple):
    """A host and port, as the command line has them."""

    host: str
    port: int

    def ip_address(self) -> str:
        """The host's IP address, the only form that the kernel takes: its first IPv4 address if it
        has one, else its first IPv6 address. Each call asks the system, and waits for its answer.
        Refused if the system can't resolve the host."""
        import socket

        try:
            found = socket.getaddrinfo(self.host, self.port, type=socket.SOCK_STREAM)
        except (OSError, UnicodeError) as error:
            why = error.strerror if isinstance(error, OSError) else 'no name of a host'
            raise Refused(f'--serve {self.host}: {why}') from error
        addresses = [(family, str(address[0])) for family, _, _, _, address in found]
        _, preferred = min(addresses, key=lambda address: address[0] != socket.AF_INET)
        return preferred

    def __str__(self) -> str:
        """`HOST:PORT`, as it is printed: without brackets, also for an IPv6 host."""
        return f'{self.host}:{self.port}'
