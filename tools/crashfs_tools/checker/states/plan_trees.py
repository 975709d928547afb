"""The trees of a plan's states, which the program makes, and those of them that are in memory. Of a
small plan all may be read from one archive: the program is started once for them."""

from __future__ import annotations

from dataclasses import dataclass
from functools import cached_property
from typing import TYPE_CHECKING, Iterable, Iterator, List, Sequence, Set, Tuple

from crashfs_tools.common.command import TEXT
from crashfs_tools.common.guard import Guard
from crashfs_tools.common.program import Crashfs
from crashfs_tools.common.trace_lines import is_large_trace

from .layout import TreesByState, list_tree, read_trees
from .plan import Plan, PlannedTrace

if TYPE_CHECKING:
    from crashfs_tools.common.entry import Entries

# Trees are large if a trace has so many start lines, or so many bytes in its lines and in what they
# make files grow to.
MUCH_ENTRIES, MUCH_BYTES = 32, 1 << 20
# Of more trees, or more bytes of files, each process reads an archive of its own at the same time.
MOST_TREES, MOST_BYTES = 256, 1 << 24


@dataclass
class PlanTrees:
    """The trees of one plan's states, which the program makes with the guard's environment. Those
    that were needed stay loaded, unless the trace's trees are large; with loads_all, all trees of a
    small plan are loaded at once."""

    program: Crashfs
    planned: PlannedTrace
    guard: Guard
    loads_all: bool

    @cached_property
    def are_large(self) -> bool:
        """Whether the trace has at least MUCH_ENTRIES start lines, or MUCH_BYTES bytes in its lines
        and in the sizes that truncates set. Its trees then take longer to lay out than a recovery
        runs, and aren't loaded. OSError if the trace can't be read, TraceError if a line is
        no JSON."""
        with open(self.planned.trace, **TEXT) as lines:
            return is_large_trace(lines, MUCH_ENTRIES, MUCH_BYTES)

    @cached_property
    def loaded(self) -> TreesByState:
        """The trees in memory: those that load() added and, with loads_all, all of a small plan,
        which are read at the first use, but none if they have more than MOST_BYTES. ProgramFault if
        the program fails, or lacks a tree of a small plan; other errors as in are_large."""
        plan = self.planned.plan
        if not self.loads_all or self.are_large or not is_small(plan):
            return {}
        trees: TreesByState = {}
        byte_count = 0
        first_numbers = {state.same for state in plan.listed}
        environment = self.guard.environment
        numbered_trees = read_trees(
            self.program, self.planned, first_numbers, environment, list_tree
        )
        for number, tree in numbered_trees:
            trees[number] = tree
            byte_count += sum(len(entry.data or b'') for _, entry in tree)
            if byte_count > MOST_BYTES:
                return {}
        return trees

    def load(self, numbers: Sequence[int], next_numbers: Iterable[int] = ()) -> None:
        """Adds the trees of the states of these numbers to `loaded`, unless the trees are large. If
        one of them must be read, the same run of the program gives those of next_numbers, which are
        needed next. ProgramFault if the program fails or lacks one: those before it are added.
        Other errors as in are_large."""
        if self.are_large or self.first_numbers(numbers) <= self.loaded.keys():
            return
        missing_numbers = self.first_numbers([*numbers, *next_numbers]) - self.loaded.keys()
        environment = self.guard.environment
        self.loaded.update(
            read_trees(self.program, self.planned, missing_numbers, environment, list_tree)
        )

    def first_numbers(self, numbers: Iterable[int]) -> Set[int]:
        """The numbers of the first states that have the trees of the states of these numbers."""
        return {self.planned.plan.state(number).same for number in numbers}

    def of_state(self, number: int) -> Entries:
        """The tree of a state, without its root. Errors as in of_states()."""
        return self.of_states([number])[0]

    def of_states(self, numbers: Sequence[int]) -> List[Entries]:
        """The trees of the states of these numbers, in their order, without the roots. Entries may
        be shared, and must not be changed. Trees that aren't large stay loaded. If the program
        lacks a tree: ProgramFault, or KeyError for its number."""
        if self.are_large:
            trees = dict(self.read(numbers))
            return [without_root(trees[number]) for number in numbers]
        self.load(numbers)
        first_numbers = (self.planned.plan.state(number).same for number in numbers)
        return [
            {f'/{path}': entry for path, entry in self.loaded[first_number] if path}
            for first_number in first_numbers
        ]

    def read(self, numbers: Iterable[int]) -> Iterator[Tuple[int, Entries]]:
        """Reads the trees of the states of these numbers from the program, and yields each, with
        its root, after its number, in any order. Loaded trees are neither used nor added.
        ProgramFault if the program fails; a state that it leaves out is missing."""
        for request in self.planned.requests(numbers):
            for own_number, tree in self.program.trees(request.options, self.guard.environment):
                yield own_number + request.number_offset, tree


def without_root(tree: Entries) -> Entries:
    """A copy of a tree that lacks its root."""
    return {path: entry for path, entry in tree.items() if path != '/'}


def is_small(plan: Plan) -> bool:
    """Whether a plan has at most MOST_TREES different trees, so that all of them may be loaded."""
    return len({state.same for state in plan.listed}) <= MOST_TREES
