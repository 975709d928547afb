"""Names of users and groups as the numbers that a disk has, and back."""

from __future__ import annotations

import grp
import pwd
from typing import Callable, Dict

from crashfs_tools.common.trace import (
    Chown,
    Creat,
    Header,
    Mkdir,
    Start,
    StartSymlink,
    Symlink,
    Trace,
)

# Names that this machine doesn't know have numbers from here on.
FIRST_UNKNOWN = 200_000


class AccountNumbers:
    """The numbers of users, or of groups. A name keeps the first number that it is given."""

    def __init__(self, account_number: Callable[[str], int]) -> None:
        """account_number returns the number that this machine's accounts have for a name, and
        raises KeyError if they have none. No name has a number yet."""
        self.account_number = account_number
        self.numbers: Dict[str, int] = {}
        self.names: Dict[int, str] = {}

    def number(self, name: str) -> int:
        """The number of a name. The first call for a name gives it one: the number that this
        machine's accounts have for it, or else one from FIRST_UNKNOWN on."""
        if name not in self.numbers:
            try:
                number = self.account_number(name)
            except KeyError:
                number = FIRST_UNKNOWN + len(self.numbers)
            self.numbers[name] = number
            self.names.setdefault(number, name)
        return self.numbers[name]

    def name(self, number: int) -> str:
        """The name that has a number; of several the one that got the number first. If none has
        it, the number's digits."""
        return self.names.get(number, str(number))


class Owners:
    """The numbers of a trace's users and groups. Names get them in the order in which the trace has
    the names, so the numbers are the same in each process that makes the session again."""

    def __init__(self, trace: Trace) -> None:
        """Gives each name of the trace its number, for which the system's accounts are read."""
        self.users = AccountNumbers(lambda name: pwd.getpwnam(name).pw_uid)
        self.groups = AccountNumbers(lambda name: grp.getgrnam(name).gr_gid)
        for line in (trace.header, *trace.start, *trace.operations):
            if isinstance(line, (Header, Start, StartSymlink, Creat, Mkdir, Symlink, Chown)):
                self.users.number(line.owner)
                self.groups.number(line.group)
