"""Records what a program does to a directory, and checks a recovery in its crash states.

    from crashfs_tools import check, record

    recording = record('store', ['./session.sh'], 'store.trace')
    report = check(recording.trace, ['./recover.sh'])
    for entry in report.entries:
        print(entry)

docs/how-to/testing.md explains it.
"""

from __future__ import annotations

from typing import TYPE_CHECKING

if TYPE_CHECKING:
    from crashfs_tools.api.checks import check as check
    from crashfs_tools.api.crash_states import CrashState as CrashState
    from crashfs_tools.api.crash_states import states as states
    from crashfs_tools.api.recordings import Recording as Recording
    from crashfs_tools.api.recordings import record as record
    from crashfs_tools.api.reports import Entry as Entry
    from crashfs_tools.api.reports import Report as Report
    from crashfs_tools.api.reports import StateOutcome as StateOutcome
    from crashfs_tools.common.command import Refused as Refused

VERSION = '0.2.0'

# The public names, and the modules that they are imported from when they are asked for: the
# commands need few of them.
PUBLIC = {
    'check': 'api.checks',
    'CrashState': 'api.crash_states',
    'states': 'api.crash_states',
    'Recording': 'api.recordings',
    'record': 'api.recordings',
    'Entry': 'api.reports',
    'Report': 'api.reports',
    'StateOutcome': 'api.reports',
    'Refused': 'common.command',
}
# The same names: linters read only a list of texts.
__all__ = [
    'check',
    'CrashState',
    'states',
    'Recording',
    'record',
    'Entry',
    'Report',
    'StateOutcome',
    'Refused',
]


def __getattr__(name: str) -> object:
    """The object that a public name of this package means. Python calls this each time that the
    name is used; the first call imports the object's module. AttributeError for any other name."""
    if name not in PUBLIC:
        raise AttributeError(f'module {__name__!r} has no attribute {name!r}')
    from importlib import import_module

    return getattr(import_module(f'{__name__}.{PUBLIC[name]}'), name)
