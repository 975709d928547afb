"""Asks the program for the plan of a trace."""

from __future__ import annotations

import os
from dataclasses import dataclass, replace
from functools import reduce
from operator import and_
from typing import Iterable, List, Optional, Sequence, Tuple

from crashfs_tools.checker.options import Options
from crashfs_tools.common import limits
from crashfs_tools.common.command import Refused
from crashfs_tools.common.guard import Guard
from crashfs_tools.common.program import Crashfs, ProgramFault, is_plan_too_large

from .all_sets import AllSets, ReadingSets, all_sets
from .place_sets import places_of, size_of
from .plan import (
    AllStates,
    Needs,
    Offsets,
    Part,
    Plan,
    PlannedTrace,
    PlanOptions,
    SetProfiles,
    State,
)
from .plan_trees import is_small
from .read_plan import read_plan

# Sets are drawn by the same seed each time.
SEED = 1
OTHER_NEEDS = (
    'what its micro-operations need is by the program not what it is by the second reading, of '
    'which one is wrong'
)


class TooLarge(Refused):
    """A trace that the program takes only in windows."""


@dataclass
class Planner:
    """Makes plans of traces, by one program, with the states that a check's options ask for. The
    guard has the directory for files of picks, and the program's environment. A trace is the path
    of its file. Each method that runs the program raises Refused for a trace with a fault, and
    PlanError if these tools don't know what the program prints."""

    options: Options
    program: Crashfs
    guard: Guard

    def plan(self, trace: str, offsets: Offsets = Offsets()) -> PlannedTrace:
        """The plan of a trace at these offsets in its session. It has the families that the options
        ask for and, if they ask for all crash states, all or drawn ones. Writes files of picks.
        TooLarge if the trace is too long for one plan; Refused for an unknown profile in --in, or
        if the readings differ in what a micro-operation needs; ProgramFault if the program fails to
        print sets; OSError if a file can't be read or written."""
        options = self.options
        if not (options.has_lost or options.has_files or options.may_try_all or options.profile):
            return self.plan_picks(trace, offsets, [])
        reading_sets = self.read_trace(trace)
        if options.may_try_all:
            all_crash_sets = all_sets(self.program, self.guard.environment, reading_sets)
            with all_crash_sets.started(options.most_states):
                planned = self.plan_all_states(trace, offsets, reading_sets, all_crash_sets)
        else:
            planned = self.plan_picks(trace, offsets, [self.family_sets(reading_sets)])
            if options.profile:
                planned.plan = self.with_profiles(planned.plan, reading_sets, None)
        if planned.plan.needs.masks != reading_sets.needs.masks:
            raise Refused(f'{trace}: {OTHER_NEEDS}')
        return planned

    def planner_of_copies(self, plan: Plan) -> Planner:
        """The planner for copies of a plan's trace to which lines were added: this one or, for a
        small plan, one of the second reading, which plans a copy in less time than the program
        takes to start."""
        if not is_small(plan):
            return self
        return Planner(self.options, Crashfs.second_reading(), self.guard)

    def plan_different_states(self, copy: str, plan: Plan) -> Optional[PlannedTrace]:
        """A plan of a copy of a plan's trace, with the same micro-operations: each different crash
        state, under the profile of --in if that is given, is one pick. The second reading finds
        them. The program doesn't know the plan, so that no state of it can be made. None if there
        are more than options.most_states states. Errors as in read_trace()."""
        reading_sets = self.read_trace(copy)
        sets = reading_sets.different_sets(self.options.most_states, self.options.profile or '')
        if sets is None:
            return None
        states = [
            State(
                number,
                'pick',
                tuple(places_of(members)),
                says=size_of(members & plan.say_places),
                same=number,
            )
            for number, members in enumerate(sets)
        ]
        needs = [needed | 1 << place for place, needed in enumerate(reading_sets.order().needs)]
        return PlannedTrace(copy, [], Plan(plan.operations, states, Needs(needs)))

    def has_few_states(self, trace: str) -> bool:
        """Whether a trace has at most options.most_states different crash states, so that all can
        be tried. Errors as in read_trace(); ProgramFault or PlanError if the program prints no
        sets."""
        sets = all_sets(self.program, self.guard.environment, self.read_trace(trace))
        return sets.different_sets(self.options.most_states) is not None

    def read_trace(self, trace: str) -> ReadingSets:
        """Reads a trace by the second reading, for its sets. If the second reading refuses the
        trace: Refused or TooLarge, with the program's text if the program refuses the trace too.
        OSError if the file can't be read."""
        from crashfs_tools.reading import ReadingFault

        try:
            return ReadingSets(trace)
        except ReadingFault as fault:
            self.list_plan(PlanOptions(['--trace', trace]))
            raise Refused(f'{trace}: the second reading refuses it: {fault}') from fault

    def plan_all_states(
        self, trace: str, offsets: Offsets, reading_sets: ReadingSets, all_crash_sets: AllSets
    ) -> PlannedTrace:
        """The plan of the families and of all crash states. If these are too many, the plan has
        sets drawn at random in their place, or none if the sets can't even be counted; its
        all_states says so. all_crash_sets must be of the same trace as reading_sets. Errors as in
        plan()."""
        family_sets, needs = self.family_sets(reading_sets), reading_sets.needs
        different_sets = find_sets_of_all_states(
            all_crash_sets, reading_sets, self.options.most_states
        )
        drawn_sets: List[int] = []
        if different_sets is None:
            drawn_sets = all_crash_sets.drawn_sets(self.options.draw_count, SEED) or []
        more_sets = self.without_listed(needs, different_sets or drawn_sets)
        picks = list(dict.fromkeys([*family_sets, *more_sets]))
        planned = self.plan_picks(trace, offsets, self.divide_picks(picks, needs))
        # The plan lists them first, then the picks, of which those of families come first.
        prefixes_and_holes = len(planned.plan.listed) - len(picks)
        all_states = AllStates(
            sets=all_crash_sets.count_sets(),
            are_listed=different_sets is not None,
            are_from_reading=all_crash_sets.are_from_reading,
            most=self.options.most_states,
            families=prefixes_and_holes + len(family_sets),
            drawn=numbers_of_sets(planned.plan, drawn_sets) if drawn_sets else (),
        )
        planned.plan = self.with_profiles(planned.plan, reading_sets, all_states)
        return planned

    def with_profiles(
        self, plan: Plan, reading_sets: ReadingSets, all_states: Optional[AllStates]
    ) -> Plan:
        """A copy of a plan with these all_states, the profiles that allow its sets, and the profile
        of --in as the wanted one. The profiles are those that the program printed, if it has the
        same names in the same order as the second reading; else those of the second reading.
        Refused if the trace doesn't have the profile of --in."""
        names, printed_profiles = reading_sets.profile_names, plan.profiles
        profile_bits = printed_profiles.of_sets if printed_profiles.names == names else ()
        if not profile_bits:
            profile_bits = tuple(
                reading_sets.profile_bits(plan.kept[state.number] for state in plan.listed)
            )
        wanted = self.options.profile or ''
        if wanted not in ('', *names):
            known_names = ', '.join(names)
            hint = '; record with --trace-version 4' if wanted == 'journal' else ''
            raise Refused(f'--in {wanted}: the profiles of this trace are {known_names}{hint}')
        return plan.with_states(plan.listed, all_states, SetProfiles(names, profile_bits, wanted))

    def divide_picks(self, picks: List[int], needs: Needs) -> List[List[int]]:
        """Divides picks into the parts of a plan whose micro-operations have these needs: each part
        gets as many as fit next to its prefixes and, in the first part, its holes, which --prefixes
        leaves out. The first part may get none."""
        part_size = limits.STATES - 1 - len(needs.masks)
        hole_count = 0 if self.options.prefixes else needs.hole_count
        first_end = max(0, part_size - hole_count)
        later_begins = range(first_end, len(picks), part_size)
        return [picks[:first_end], *(picks[begin : begin + part_size] for begin in later_begins)]

    def plan_picks(
        self, trace: str, offsets: Offsets, picks_of_parts: Sequence[Sequence[int]]
    ) -> PlannedTrace:
        """A plan of the prefixes, the holes unless --prefixes leaves them out, and these sets, in
        the parts of write_parts(). The second reading finds equal states of different parts.
        Refused or TooLarge if the program refuses a part; OSError as write_parts()."""
        options_of_parts = self.write_parts(trace, picks_of_parts)
        listings = [self.list_plan(options) for options in options_of_parts]
        plan = read_plan(listings[0], offsets, listings[1:])
        if len(options_of_parts) > 1:
            from .joining import joined_states

            plan = plan.with_states(joined_states(trace, plan), None, plan.profiles)
        parts = make_parts(plan, options_of_parts, [len(sets) for sets in picks_of_parts])
        return PlannedTrace(trace, parts, plan, offsets)

    def write_parts(self, trace: str, picks_of_parts: Sequence[Sequence[int]]) -> List[PlanOptions]:
        """Writes a file of picks for each part of a plan, and returns the options that name each
        part. Every part has the prefixes; only the first one has the holes. Without any pick there
        is one part, and no file. OSError if a file can't be written."""
        first_options = ['--trace', trace, *([] if self.options.prefixes else ['--holes'])]
        if not any(picks_of_parts):
            return [PlanOptions(first_options)]
        return [
            PlanOptions(
                first_options if number == 0 else ['--trace', trace],
                self.write_picks(trace, f'.picks{number or ""}', sets),
            )
            for number, sets in enumerate(picks_of_parts)
        ]

    def plan_sets(self, planned: PlannedTrace, sets: Iterable[int]) -> PlannedTrace:
        """A plan of the same trace as `planned`, at the same place of the session, with only the
        prefixes and these sets, each once, as picks. Its first state has the same number as that of
        `planned`. The next call for this
        trace replaces the file of picks: then the states of this plan can't be made any more.
        Refused or TooLarge if the program refuses the plan; OSError as write_picks()."""
        path = self.write_picks(planned.trace, '.sets', dict.fromkeys(sets))
        options = PlanOptions(['--trace', planned.trace], path)
        plan = read_plan(self.list_plan(options), planned.offsets)
        return replace(planned, parts=make_parts(plan, [options], []), plan=plan)

    def plan_prefixes(self, trace: str) -> Plan:
        """A plan of only the prefixes of a trace: the options aren't looked at. TooLarge if the
        trace has more micro-operations than the program takes; Refused for another fault."""
        return read_plan(self.list_plan(PlanOptions(['--trace', trace])))

    def family_sets(self, reading_sets: ReadingSets) -> List[int]:
        """The sets of --lost and --files, if the options ask for them and, if they ask for all
        crash states, the largest set without each line. Each set is there once; those that need no
        pick are left out, as in without_listed()."""
        from crashfs_tools.reading.plan import file_sets

        needs = reading_sets.needs
        sets = list(needs.masks) if self.options.has_lost else []
        if self.options.has_files:
            sets += file_sets(reading_sets.trace_order, reading_sets.trees)
        if self.options.may_try_all:
            operations = reading_sets.reading.operations
            sets += needs.sets_without_lines(operation.line_number for operation in operations)
        return self.without_listed(needs, dict.fromkeys(sets))

    def without_listed(self, needs: Needs, sets: Iterable[int]) -> List[int]:
        """The sets that need a pick, in their order: those that aren't the set of a prefix or hole,
        which the plan has anyway. With --prefixes or --serve each set needs a pick: a server's
        picks have all sets of the families."""
        if self.options.prefixes or self.options.serve is not None:
            return list(sets)
        return [members for members in sets if not needs.is_prefix_or_hole(members)]

    def write_picks(self, trace: str, ending: str, sets: Iterable[int]) -> str:
        """Writes a file of picks, with a line for each set, to the guard's directory, in place of
        an earlier one. Returns the file's path: its name is that of the trace with this ending.
        OSError if it can't be written."""
        path = os.path.join(self.guard.directory, os.path.basename(trace) + ending)
        with open(path, 'w', encoding='ascii') as file:
            file.writelines(f'{list(places_of(members))}\n' for members in sets)
        return path

    def list_plan(self, options: PlanOptions) -> str:
        """What the program's `list --json` prints of the plan with these options, as read_plan()
        reads it. If it fails: TooLarge or Refused, as make_refusal() says."""
        try:
            words = ['list', *options.with_picks, '--json']
            return self.program.output_of(words, self.guard.environment)
        except ProgramFault as fault:
            raise self.make_refusal('list', fault) from fault

    def make_refusal(self, command: str, fault: ProgramFault) -> Refused:
        """Makes of a fault of the program a TooLarge, if a plan would be too large, or a Refused,
        and returns it. If the program doesn't know an option, the text says that its `command`
        isn't the one that these tools use."""
        if fault.is_unknown_option:
            usage = {'list': '`list --json`', 'tar': '`tar --states`'}.get(command, f'`{command}`')
            return Refused(
                f'{self.program.path} has no {usage} yet ({fault}): '
                'build the program that these tools came with'
            )
        if is_plan_too_large(fault):
            return TooLarge(str(fault))
        return Refused(str(fault))


def numbers_of_sets(plan: Plan, sets: Iterable[int]) -> Tuple[int, ...]:
    """The number of the first listed state that has each of these sets, in their order. KeyError if
    none has it."""
    number_by_set = {plan.kept[state.number]: state.number for state in reversed(plan.listed)}
    return tuple(number_by_set[members] for members in sets)


def find_sets_of_all_states(
    all_crash_sets: AllSets, reading_sets: ReadingSets, most_sets: int
) -> Optional[List[int]]:
    """A set for each different state; None if there are more than most_sets states. Then, for each
    profile that doesn't allow all of these sets, a set for each state that the profile allows,
    unless these are more than most_sets. A set may come several times. ProgramFault and PlanError
    as all_crash_sets raises them."""
    different_sets = all_crash_sets.different_sets(most_sets)
    if different_sets is None:
        return None
    common_bits = reduce(and_, reading_sets.profile_bits(different_sets))
    other_names = [
        name
        for place, name in enumerate(reading_sets.profile_names)
        if not common_bits >> place & 1
    ]
    return different_sets + [
        members
        for name in other_names
        for members in all_crash_sets.different_sets(most_sets, name) or []
    ]


def make_parts(
    plan: Plan, options_of_parts: List[PlanOptions], pick_counts: List[int]
) -> List[Part]:
    """The parts of a plan, each with its options and the range of its states. pick_counts has how
    many picks each part has; it may be empty if there is one part. The first part has all states
    but the picks of the others. Each further part has only picks: in the program its prefixes come
    before them."""
    first_end = plan.first + len(plan.listed) - sum(pick_counts[1:])
    first_pick = len(plan.operations) + 1
    parts = [Part(options_of_parts[0], plan.first, first_end, first_in_program=0)]
    for options, pick_count in zip(options_of_parts[1:], pick_counts[1:]):
        begin = parts[-1].end
        parts.append(Part(options, begin, begin + pick_count, first_in_program=first_pick))
    return parts
