"""Lays states out by what they change: each process has one directory that it brings from state to
state."""

from __future__ import annotations

import os
from contextlib import contextmanager
from itertools import chain
from typing import Dict, Iterator, Optional, Set, Tuple

from crashfs_tools.common.entry import Entries
from crashfs_tools.common.program import Crashfs

from .changes import read_changes
from .kept_tree import KeptTree
from .layout import Layout, with_all_wanted
from .plan import PlannedTrace, Request


class KeptLayout(Layout):
    """Lays all states out below a folder, in one directory of each process that calls states().
    kept_tree is that of this process, None before the call."""

    def __init__(
        self, program: Crashfs, planned: PlannedTrace, folder: str, environment: Dict[str, str]
    ) -> None:
        """Asks the program, which gets the environment, for the start tree; ProgramFault if it
        fails."""
        self.program, self.planned = program, planned
        self.folder, self.environment = folder, environment
        words = [*planned.parts[0].options.without_picks, '--state', '0']
        with program.open_archive(words, environment) as members:
            self.start: Entries = dict(members)
        self.kept_tree: Optional[KeptTree] = None

    def states(self, wanted: Set[int]) -> Iterator[Tuple[int, str]]:
        """Yields each wanted state, ascending, with the path of the process's directory, which has
        the state's tree then. The path is the same each time, unless an earlier directory couldn't
        be removed. In the end, also after an exception, the directory is removed as far as it can
        be. Errors as in changed_trees() and KeptTree.change_to()."""
        kept_tree = self.kept_tree = KeptTree(os.path.join(self.folder, f'kept-{os.getpid()}'))
        try:
            for number, tree in self.changed_trees(wanted):
                kept_tree.change_to(tree)
                yield number, kept_tree.directory
        finally:
            kept_tree.remove()

    @contextmanager
    def laid_out(self, number: int, directory: str) -> Iterator[None]:
        """Notes that COMMAND may change the directory from now on. The directory stays afterwards,
        as COMMAND left it: states() changes it to the next tree. Call it only within a loop over
        states(), which determines the directory: the arguments are ignored."""
        assert self.kept_tree is not None
        self.kept_tree.note_start()
        yield

    def changed_trees(self, wanted: Set[int]) -> Iterator[Tuple[int, Entries]]:
        """Yields each wanted state, ascending, with its tree, the root included. Trees share
        entries, which must not be changed. Errors as in trees_of_request(); ProgramFault, at the
        end, if the program lacks a state."""
        requests = self.planned.requests(wanted)
        return with_all_wanted(wanted, chain.from_iterable(map(self.trees_of_request, requests)))

    def trees_of_request(self, request: Request) -> Iterator[Tuple[int, Entries]]:
        """Yields each state that the program gives for a request, with its tree: the start tree
        with the state's changes. ProgramFault if the program's output is no archive of changes and,
        at the end, if the program failed; KeyError if a change removes what the start tree lacks.
        The program is killed if the caller stops early."""
        words = [*request.options, '--changes']
        with self.program.open_archive(words, self.environment) as members:
            for changes in read_changes(members):
                yield changes.number + request.number_offset, changes.apply_to(self.start)
