"""What a release has, and where each file goes in the folder that it is unpacked to."""

from __future__ import annotations

import gzip
from dataclasses import dataclass
from pathlib import Path
from typing import Dict

from .programs import TOP, tracked_files

LIBRARY = 'lib/crashfs'
DOCUMENTS = 'share/doc/crashfs'
COMMANDS = ('crashfs-campaign', 'crashfs-check', 'crashfs-record')
TOP_PAGES = ('README.md', 'CHANGELOG.md', 'SECURITY.md')


@dataclass(frozen=True)
class Item:
    """A file of a release: its bytes, and whether it is a program; or a symbolic link, whose target
    isn't empty."""

    content: bytes = b''
    is_program: bool = False
    target: str = ''

    @property
    def is_link(self) -> bool:
        """Whether it is a symbolic link."""
        return bool(self.target)

    @property
    def mode(self) -> int:
        """The mode of the file, or that which every link has."""
        if self.is_link:
            return 0o777
        return 0o755 if self.is_program else 0o644


Items = Dict[str, Item]


def item_of_file(path: str) -> Item:
    """The item of a file of the repository as it is now, committed or not, by its path from the
    top. It is a program if its owner may execute it. OSError if the file isn't there."""
    file = TOP / path
    return Item(file.read_bytes(), is_program=bool(file.stat().st_mode & 0o100))


def tool_items() -> Items:
    """The commands of Python with their package, by their paths in a release; bin/ has a link to
    each command. Files of the package that git doesn't track are left out. OSError if a tracked
    file isn't there; errors as tracked_files()."""
    items = {
        f'{LIBRARY}/{path[len("tools/"):]}': item_of_file(path)
        for path in tracked_files('tools/crashfs_tools')
    }
    for command in COMMANDS:
        items[f'{LIBRARY}/{command}'] = item_of_file(f'tools/{command}')
        items[f'bin/{command}'] = Item(target=f'../{LIBRARY}/{command}')
    return items


def document_items() -> Items:
    """Pages, pictures, data and examples, by their paths in a release. They are in the same folders
    there as in the repository, so that links between them work. Errors as tool_items()."""
    further_paths = [
        *tracked_files('docs/images'),
        *tracked_files('docs/results.json'),
        *tracked_files('examples'),
    ]
    paths = [*TOP_PAGES, *tracked_files('docs/*.md'), *further_paths]
    return {f'{DOCUMENTS}/{path}': item_of_file(path) for path in paths}


def manual_items() -> Items:
    """The manual pages, compressed as Debian requires it, by their paths in a release. The suffix
    of a page's file is its section. The same text gives the same bytes, which have no time. Errors
    as tool_items(); IndexError for a file without a suffix."""
    items: Items = {}
    for path in tracked_files('docs/man'):
        section = path.rsplit('.', 1)[1]
        content = gzip.compress((TOP / path).read_bytes(), 9, mtime=0)
        items[f'share/man/man{section}/{Path(path).name}.gz'] = Item(content)
    return items


def completion_items() -> Items:
    """The completions of the commands, by their paths in a release, in the folders in which bash,
    zsh and fish look for them. KeyError if tools/completions has a file with another suffix; errors
    as tool_items()."""
    places = {
        'bash': 'share/bash-completion/completions/{0}',
        'zsh': 'share/zsh/vendor-completions/_{0}',
        'fish': 'share/fish/vendor_completions.d/{0}.fish',
    }
    items: Items = {}
    for path in tracked_files('tools/completions'):
        command, _, shell = Path(path).name.rpartition('.')
        items[places[shell].format(command)] = Item((TOP / path).read_bytes())
    return items


def release_items(program_bytes: bytes, built_bytes: bytes) -> Items:
    """All files of a release, sorted by their paths there. program_bytes are those of crashfs, and
    built_bytes those of the module `built`. Nothing is written. Errors as tool_items(),
    manual_items() and completion_items()."""
    items = {**tool_items(), **document_items(), **manual_items(), **completion_items()}
    items['bin/crashfs'] = Item(program_bytes, is_program=True)
    items[f'{LIBRARY}/crashfs_tools/built.py'] = Item(built_bytes)
    return dict(sorted(items.items()))
