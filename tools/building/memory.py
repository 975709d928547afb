"""How much memory this machine has, by /proc/meminfo; a container's limit isn't looked at."""

from __future__ import annotations

MEMORY = '/proc/meminfo'
GIGABYTE = 2**30


def read_memory_field(name: str) -> int:
    """The value of a field of /proc/meminfo, in bytes, now. OSError without /proc, KeyError if the
    system has no such field."""
    with open(MEMORY, encoding='ascii') as file:
        fields = dict(line.split(':') for line in file)
    return int(fields[name].split()[0]) * 1024


def memory_of_machine() -> int:
    """How many bytes of memory the machine has, used or not. OSError without /proc."""
    return read_memory_field('MemTotal')


def available_memory() -> int:
    """How many bytes programs can still get, as the system estimates it. OSError without /proc."""
    return read_memory_field('MemAvailable')
