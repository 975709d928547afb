"""The sessions of examples/stores/stores.json, and the packages that they need."""

from __future__ import annotations

import json
import re
import subprocess
from pathlib import Path
from typing import Any, Dict, List, NamedTuple

TOP = Path(__file__).resolve().parents[2]
STORES = TOP / 'examples' / 'stores'


class Session(NamedTuple):
    """A session of a store: the folder of its scripts, its name there, and the store's object of
    stores.json."""

    folder: str
    name: str
    store: Dict[str, Any]

    @property
    def key(self) -> str:
        """What the session is called on the command line, and in docs/results.json."""
        return f'{self.folder}/{self.name}'

    @property
    def title(self) -> str:
        """What the session does, as stores.json says."""
        return str(self.store['sessions'][self.name])

    @property
    def scripts_folder(self) -> Path:
        """The folder of its scripts."""
        return STORES / self.folder

    @property
    def committed_trace(self) -> Path:
        """Where its trace is if it is committed: large ones aren't."""
        return self.scripts_folder / f'{self.name}.trace'

    def missing_packages(self) -> List[str]:
        """The Debian packages that aren't installed, of those that the session's scripts need: the
        store's package, and those in its `needs`. OSError if there is no dpkg-query."""
        needed = (self.store['package'], *self.store.get('needs', []))
        return [package for package in needed if not installed_version(package)]


def read_sessions() -> List[Session]:
    """All sessions of stores.json, in its order. OSError if it can't be read, ValueError if it is
    no JSON."""
    stores: List[Dict[str, Any]] = json.loads((STORES / 'stores.json').read_text('utf-8'))
    return [Session(store['folder'], name, store) for store in stores for name in store['sessions']]


def find_sessions(names: List[str]) -> List[Session]:
    """The sessions whose folder or key is among the names, in the order of stores.json; all
    sessions if there are no names. A name that no session has is ignored. Errors as
    read_sessions()."""
    sessions = read_sessions()
    if not names:
        return sessions
    return [session for session in sessions if {session.folder, session.key} & set(names)]


def installed_version(package: str) -> str:
    """The version of a Debian package, without what Debian adds: `1.23` for `1:1.23-4` or
    `1.23+dfsg1-4`. If the package is installed for several architectures, the first version that
    dpkg-query prints. Empty if it isn't installed; OSError if there is no dpkg-query."""
    words = ['dpkg-query', '-W', '-f', '${Status} ${Version}\n', package]
    completed = subprocess.run(
        words, stdout=subprocess.PIPE, stderr=subprocess.DEVNULL, check=False
    )
    for line in completed.stdout.decode().splitlines():
        status, _, version = line.rpartition(' ')
        if status == 'install ok installed':
            return re.split('[-+]', version.rpartition(':')[2])[0]
    return ''
