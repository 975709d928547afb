"""All crash states of a trace, as sets of micro-operations: found by the program, or by the second
reading if the program doesn't list them. Sets are numbers whose bits are the places."""

from __future__ import annotations

import json
from contextlib import contextmanager, nullcontext
from functools import cached_property
from itertools import islice
from typing import (
    TYPE_CHECKING,
    ContextManager,
    Dict,
    Iterable,
    Iterator,
    List,
    Optional,
    Protocol,
    Tuple,
)

from crashfs_tools.common.command import parse_number
from crashfs_tools.common.program import (
    Crashfs,
    ProgramFault,
    RunningProgram,
    end_program,
    output_of_started,
)

from .place_sets import set_of
from .plan import Needs, PlanError

if TYPE_CHECKING:
    from crashfs_tools.reading import Reading
    from crashfs_tools.reading.order import Order
    from crashfs_tools.reading.trees import Trees

# What the program says if there are too many sets.
TOO_MANY = ('more than ', 'too many sets')
# Since this version a set that lacks an acknowledged line has nothing that follows it.
ACKNOWLEDGED_FIRST = 3
# The options by which `picks` prints how many sets the rules allow.
COUNT_OPTIONS = ['--every', '--count']
# The program makes the tree of each state whole. If the start has more bytes, that is slow.
START_BYTES = 1 << 20


class AllSets(Protocol):
    """The sets that the rules of a trace allow. A method returns None if the sets that it is asked
    for are too many."""

    @property
    def are_from_reading(self) -> bool:
        """Whether the second reading found the sets, or some of them. This is known after
        different_sets() and, if sets are drawn, drawn_sets()."""

    def started(self, most: int) -> ContextManager[None]:
        """Within this different_sets(most) and count_sets() are computed at the same time as what
        the caller does, if another process computes them."""

    def count_sets(self) -> Optional[int]:
        """How many sets the rules allow; None if these are too many to count. Call it after
        different_sets()."""

    def different_sets(self, most: int, profile: str = '') -> Optional[List[int]]:
        """A set for each different state that the profile with this name allows, by default the
        trace's own profile: the first set that leaves the state. None if there are more than `most`
        states."""

    def drawn_sets(self, count: int, seed: int) -> Optional[List[int]]:
        """`count` sets, drawn at random, each time from all: a set may come several times. The same
        seed draws the same sets. None if there are too many to count."""


def all_sets(program: Crashfs, environment: Dict[str, str], reading_sets: ReadingSets) -> AllSets:
    """The object that finds the sets of the trace of reading_sets: by the program, which gets the
    environment, if it is proved and can_program_find_sets(); else by the second reading. Nothing is
    computed yet."""
    if program.is_unproved or not can_program_find_sets(reading_sets.reading):
        return reading_sets
    return ProgramSets(program, environment, reading_sets)


def can_program_find_sets(reading: Reading) -> bool:
    """Whether the program can find the sets that a check tries, in reasonable time: the start
    tree's files and all symbolic links have at most START_BYTES together, and the version is at
    least ACKNOWLEDGED_FIRST."""
    is_small = sum(data.length for data in reading.initial_data.values()) <= START_BYTES
    return is_small and reading.version >= ACKNOWLEDGED_FIRST


class ProgramSets:
    """The sets by the program's command `picks`. If the program doesn't know an option of this
    command, the second reading answers: to ask for the known options first would be one more start
    of the program. Any other ProgramFault is raised, and a PlanError for a line that is no set."""

    def __init__(
        self, program: Crashfs, environment: Dict[str, str], reading_sets: ReadingSets
    ) -> None:
        """The environment is the program's. reading_sets has the trace, and its sets by the second
        reading."""
        self.program = program
        self.environment = environment
        self.reading_sets = reading_sets
        self.are_from_reading = False
        # Commands that run and whose output isn't read yet, by their options.
        self.running: Dict[Tuple[str, ...], RunningProgram] = {}

    @contextmanager
    def started(self, most: int) -> Iterator[None]:
        """Starts the commands of different_sets(most) and count_sets(): within the `with` these
        methods only read what the commands print. At its end commands whose output wasn't read are
        killed. Errors as in Crashfs.start()."""
        try:
            for options in (different_options(most), COUNT_OPTIONS):
                words = self.command_words(options)
                self.running[tuple(options)] = self.program.start(words, self.environment)
            yield
        finally:
            while self.running:
                end_program(self.running.popitem()[1])

    def count_sets(self) -> Optional[int]:
        """How many sets the rules allow: by the second reading if that has found sets already, else
        by the program. None if they are too many to count. PlanError if the program prints no
        number, ProgramFault also if it doesn't know the option."""
        if self.are_from_reading:
            return self.reading_sets.count_sets()
        lines = self.printed_lines(COUNT_OPTIONS)
        if lines is None:
            return None
        count = parse_number(' '.join(lines))
        if count is None:
            raise PlanError(f'crashfs picks printed: {" ".join(lines)}')
        return count

    def different_sets(self, most: int, profile: str = '') -> Optional[List[int]]:
        """Asks `picks --every --different`. The second reading answers if the program doesn't know
        an option, or if a profile is named and has too many sets for the program: are_from_reading
        is True from then on, and a profile that the trace doesn't have is a ReadingFault. Returns
        None as AllSets.different_sets() says."""
        profile_options = ['--profile', profile] if profile else []
        try:
            sets = self.printed_sets([*different_options(most), *profile_options])
            if sets is not None or not profile:
                return sets
        except ProgramFault as fault:
            if not fault.is_unknown_option:
                raise
        self.are_from_reading = True
        return self.reading_sets.different_sets(most, profile)

    def drawn_sets(self, count: int, seed: int) -> Optional[List[int]]:
        """Asks `picks --sample`. The second reading answers if the program doesn't know that
        option: are_from_reading is True from then on."""
        try:
            return self.printed_sets(['--sample', str(count), '--seed', str(seed)])
        except ProgramFault as fault:
            if not fault.is_unknown_option:
                raise
        self.are_from_reading = True
        return self.reading_sets.drawn_sets(count, seed)

    def printed_sets(self, options: List[str]) -> Optional[List[int]]:
        """The sets that `picks` prints for these options; None if the program reports that they are
        too many. PlanError for a line that is no set, ProgramFault as in printed_lines()."""
        lines = self.printed_lines(options)
        return None if lines is None else [parse_set(line) for line in lines]

    def command_words(self, options: List[str]) -> List[str]:
        """The words of the command `picks` on the trace, with these options."""
        return ['picks', '--trace', self.reading_sets.trace, *options]

    def printed_lines(self, options: List[str]) -> Optional[List[str]]:
        """The lines that `picks` prints for these options; None if the program reports that the
        sets are too many. ProgramFault for any other fault, also for an option that the program
        doesn't know."""
        child = self.running.pop(tuple(options), None)
        try:
            if child is not None:
                return output_of_started(child).splitlines()
            words = self.command_words(options)
            return self.program.output_of(words, self.environment).splitlines()
        except ProgramFault as fault:
            if any(text in fault.text for text in TOO_MANY):
                return None
            raise


def different_options(most: int) -> List[str]:
    """The options by which `picks` prints a set for each different state of a trace, if there are
    at most `most` states."""
    return ['--every', '--different', '--most', str(most)]


def parse_set(line: str) -> int:
    """The set in a line of a picks file, which is an array of places. PlanError for any other
    line."""
    try:
        places = json.loads(line)
        if type(places) is not list:
            raise ValueError('no array')
        return set_of(places)
    except (ValueError, TypeError, RecursionError, OverflowError) as error:
        raise PlanError(f'crashfs picks printed: {line}') from error


class ReadingSets:
    """The sets by the second reading, in this process. In older traces too it finds no set that
    lacks an acknowledged line and has something after it: a program prints a line before it
    continues."""

    are_from_reading = True

    def __init__(self, trace: str) -> None:
        """Reads the file of a trace. OSError if it can't be read, ReadingFault if the trace has a
        fault."""
        from crashfs_tools.reading import parse_trace

        self.trace = trace
        with open(trace, 'rb') as file:
            self.reading = parse_trace(file.read())
        # What order() has returned, by the profile's name.
        self.orders: Dict[str, Order] = {}

    def started(self, _most: int) -> ContextManager[None]:
        """A context that does nothing: the methods compute what they return."""
        return nullcontext()

    @cached_property
    def trace_order(self) -> Order:
        """The order of the trace's own profile. Unlike in order(), in older traces what follows an
        acknowledged line doesn't need this line."""
        from crashfs_tools.reading.order import Order

        return Order(self.reading)

    @cached_property
    def trees(self) -> Trees:
        """The trees that allowed sets leave."""
        from crashfs_tools.reading.trees import Trees

        return Trees(self.reading)

    @cached_property
    def needs(self) -> Needs:
        """What each micro-operation needs, with itself, as `list --json` prints it."""
        return Needs([mask | 1 << place for place, mask in enumerate(self.trace_order.needs)])

    def has_pending(self, end: int) -> bool:
        """Whether a micro-operation before the place `end` isn't durable yet when the one at `end`
        begins. Acknowledged lines don't count."""
        return self.trace_order.pending_set(end) & ~self.trees.say_places != 0

    @cached_property
    def profile_names(self) -> Tuple[str, ...]:
        """The names of the profiles that a trace of this version may have."""
        from crashfs_tools.reading.order import profile_names

        return tuple(profile_names(self.reading))

    @cached_property
    def orders_by_profile(self) -> Dict[str, Order]:
        """The order of each of profile_names. Each has only its own rules: unlike in order(), those
        of the trace's own profile aren't added."""
        from crashfs_tools.reading.order import Order

        return {name: Order(self.reading, name) for name in self.profile_names}

    def profile_bits(self, sets: Iterable[int]) -> List[int]:
        """For each set, in their order, the profiles that allow it, as bits: bit k is that of
        profile_names[k]."""
        orders = list(enumerate(self.orders_by_profile.values()))
        return [
            set_of(place for place, order in orders if order.is_allowed(members))
            for members in sets
        ]

    def order(self, profile: str = '') -> Order:
        """The order that allows what a file system of the profile with this name may leave of the
        trace's allowed sets; by default that of the trace's own profile. Also in older traces, what
        follows an acknowledged line needs this line. It is computed once for each profile.
        ReadingFault for a profile that the trace doesn't have."""
        name = profile or self.reading.profile
        if name not in self.orders:
            from crashfs_tools.reading.order import order_under

            is_own = name == self.reading.profile
            order = self.trace_order if is_own else order_under(self.reading, name)
            is_old = self.reading.version < ACKNOWLEDGED_FIRST
            self.orders[name] = order.with_earlier_lines() if is_old else order
        return self.orders[name]

    def count_sets(self) -> Optional[int]:
        """How many sets the trace's own profile allows; None if they are too many to count."""
        from crashfs_tools.reading.every import count_sets
        from crashfs_tools.reading.faults import ReadingFault

        try:
            return count_sets(self.order())
        except ReadingFault:
            return None

    def different_sets(self, most: int, profile: str = '') -> Optional[List[int]]:
        """As AllSets.different_sets() says. ReadingFault as order()."""
        from crashfs_tools.reading.classes import SetClasses

        all_different = SetClasses(self.reading, self.order(profile)).different_sets()
        sets = list(islice(all_different, most + 1))
        return sets if len(sets) <= most else None

    def drawn_sets(self, count: int, seed: int) -> Optional[List[int]]:
        """As AllSets.drawn_sets() says, from the sets that the trace's own profile allows."""
        from crashfs_tools.reading.every import drawn_sets
        from crashfs_tools.reading.faults import ReadingFault

        try:
            return list(drawn_sets(self.order(), count, seed))
        except ReadingFault:
            return None
