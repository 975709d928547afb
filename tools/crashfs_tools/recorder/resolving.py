"""Resolves paths through symbolic links, as they are when a call follows them."""

from __future__ import annotations

import os.path
from typing import Callable, Dict, List, Optional

# How many links Linux follows in one path.
MOST_LINKS = 40

# The end of a removed directory's path, which no name of a file has.
REMOVED = '\0'

# Returns the target of the symbolic link at a path; None if no link is known there.
ReadLink = Callable[[str], Optional[str]]


def removed_path(path: str) -> str:
    """The path that a removed directory has for the processes that are still in it: its old path
    with REMOVED at the end. `..` leads from it to the directory that it was in. What is made at the
    old path later is elsewhere."""
    return path + REMOVED


class Resolver:
    """Resolves paths by the symbolic links of the recorded directory and those outside it.
    outside_targets has the answers of read_outside for the paths that it was asked for."""

    def __init__(self, top: str, read_inside: ReadLink, read_outside: ReadLink) -> None:
        """top is the absolute path of the recorded directory, without symbolic links in it.
        read_inside takes paths below it, which begin with `/`; read_outside takes absolute paths.
        Both are called when a path is resolved."""
        self.top = top
        self.read_inside, self.read_outside = read_inside, read_outside
        self.outside_targets: Dict[str, Optional[str]] = {}

    def path_below(self, path: Optional[str]) -> Optional[str]:
        """The part of an absolute path below the recorded directory, which begins with `/`, and is
        `/` for that directory itself. None for a path outside, in a removed directory, or None. The
        path must have no symbolic links and no `..`, as resolve() returns it."""
        if path is None or REMOVED in path:
            return None
        if path == self.top:
            return '/'
        prefix = self.top.rstrip('/')
        return path[len(prefix) :] if path.startswith(prefix + '/') else None

    def resolve(self, path: str, *, follow_last_link: bool) -> Optional[str]:
        """The absolute path to which an absolute path leads, without symbolic links and `..`.
        Nothing need be there. A link at the path's end is followed if follow_last_link is set, or
        if the path ends with a slash. None if it goes through more than MOST_LINKS links."""
        follow_last_link = follow_last_link or path.endswith('/')
        resolved, names_left = '/', names_in_reverse(path)
        # The recorded directory's own path has no links.
        if path.startswith(self.top + '/'):
            resolved, names_left = self.top, names_in_reverse(path[len(self.top) :])
        link_count = 0
        while names_left and link_count <= MOST_LINKS:
            name = names_left.pop()
            next_path = os.path.dirname(resolved) if name == '..' else os.path.join(resolved, name)
            may_be_link = name != '..' and (bool(names_left) or follow_last_link)
            target = self.read_link(next_path) if may_be_link else None
            if target is None:
                resolved = next_path
            else:
                link_count += 1
                resolved = '/' if target.startswith('/') else resolved
                names_left += names_in_reverse(target)
        return resolved if link_count <= MOST_LINKS else None

    def read_link(self, path: str) -> Optional[str]:
        """The target of the symbolic link at an absolute path; None if no link is known there, and
        in a removed directory. Outside the recorded directory the first answer for a path is
        kept, though the link may change."""
        if REMOVED in path:
            return None
        below = self.path_below(path)
        if below is not None:
            return None if below == '/' else self.read_inside(below)
        if path not in self.outside_targets:
            self.outside_targets[path] = self.read_outside(path)
        return self.outside_targets[path]


def names_in_reverse(path: str) -> List[str]:
    """The names of a path, the last one first, without empty ones and `.`; `..` is among them."""
    return [name for name in reversed(path.split('/')) if name not in ('', '.')]
