"""What is mounted below a directory."""

from __future__ import annotations

import os
import re
import select
import subprocess
from typing import Dict, List, Mapping

TABLE = '/proc/self/mountinfo'
OCTAL = re.compile(rb'\\([0-7]{3})')
# A lazy unmount also ends a mount that is in use. The last ones are for those of ordinary users.
UNMOUNTS = (['umount', '-l'], ['fusermount3', '-uz'], ['fusermount', '-uz'])


class MountTable:
    """The mount points that this process sees, by the numbers of the mounts. They are read again
    only if the system has changed them. Without /proc there are none. The table stays open as long
    as the process runs."""

    def __init__(self) -> None:
        """Opens the table, and reads it. OSError if it can be opened but not read."""
        self.poll = select.poll()
        self.points: Dict[int, str] = {}
        # All points as one text: only if a path is in it, any point can be below the path.
        self.points_text = ''
        try:
            table = os.open(TABLE, os.O_RDONLY | os.O_CLOEXEC)
        except OSError:
            return
        self.poll.register(table, select.POLLPRI)
        self.read_table()

    def read_table(self) -> None:
        """Reads the table again. OSError if it can't be read."""
        self.points = read_mount_points()
        self.points_text = '\n'.join(self.points.values())

    def points_below(self, directory: str) -> Dict[int, str]:
        """The mount points at a directory and below it, by the numbers of the mounts, in the order
        in which they were mounted. The path must be absolute and without links. OSError if the
        table has changed and can't be read."""
        if self.poll.poll(0):
            self.read_table()
        if directory not in self.points_text:
            return {}
        folder_prefix = os.path.join(directory, '')
        return {
            number: point
            for number, point in self.points.items()
            if point == directory or point.startswith(folder_prefix)
        }

    def unmount(self, points: Mapping[int, str]) -> List[str]:
        """Unmounts these mount points, the last one first, each by try_to_unmount(). Returns the
        paths that are still mounted by the same mounts. OSError as points_below()."""
        for point in reversed(list(points.values())):
            try_to_unmount(point)
        remaining = self.points_below('/') if points else {}
        return [point for number, point in points.items() if remaining.get(number) == point]


def read_mount_points() -> Dict[int, str]:
    """The mount points that this process sees now, by the numbers of the mounts, in the order of
    the table. OSError if the table can't be read."""
    with open(TABLE, 'rb') as table:
        rows = [line.split(b' ') for line in table]
    return {int(row[0]): os.fsdecode(OCTAL.sub(byte_of_escape, row[4])) for row in rows}


def byte_of_escape(match: re.Match[bytes]) -> bytes:
    """The byte of an escape, such as `\\040` for a blank."""
    return bytes([int(match[1], 8)])


def try_to_unmount(point: str) -> None:
    """Unmounts what was mounted last at a path, even if it is in use: tries UNMOUNTS until one
    succeeds, each without a time limit. Nothing happens if none does."""
    for words in UNMOUNTS:
        if run_quietly([*words, point]):
            return


def run_quietly(words: List[str]) -> bool:
    """Runs a command without input and output, and waits for it without limit. Returns whether it
    ended with status 0; False if it can't be started."""
    try:
        completed = subprocess.run(
            words,
            stdin=subprocess.DEVNULL,
            stdout=subprocess.DEVNULL,
            stderr=subprocess.DEVNULL,
            check=False,
        )
    except OSError:
        return False
    return completed.returncode == 0
