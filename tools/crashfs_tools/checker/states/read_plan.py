"""Reads the plan of a trace, as `crashfs list --json` prints it."""

from __future__ import annotations

import json
from dataclasses import dataclass, field
from typing import Any, Dict, List, Sequence, Tuple

from .place_sets import set_of
from .plan import PlannedMicroOperation, Needs, Offsets, Plan, PlanError, SetProfiles, State

# The fields of a micro-operation that its text has after its kind and path, in this order.
DETAILS = ('to', 'block', 'at', 'count', 'length', 'node', 'target', 'mode', 'owner', 'group')

# What a line of another form raises: deep nesting a RecursionError, a huge place an OverflowError,
# the number of a line that the session doesn't have an IndexError.
LINE_FAULTS = ValueError, LookupError, TypeError, AttributeError, RecursionError, OverflowError


def read_plan(
    listing: str, offsets: Offsets = Offsets(), more_listings: Sequence[str] = ()
) -> Plan:
    """The plan that `list --json` printed, in numbers, places and lines of the session.
    more_listings is what it printed for further parts, of which only the picks are added; the
    `same` of these is right only within their part. PlanError for a line of another form."""
    reader = PlanReader(offsets)
    for part_listing in (listing, *more_listings):
        reader.add_part(part_listing)
    needs = Needs(reader.needs)
    profiles = SetProfiles(reader.profile_names, tuple(reader.profile_bits))
    return Plan(reader.operations, reader.states, needs, offsets.states, profiles=profiles)


@dataclass
class PlanReader:
    """Reads what `crashfs list` printed of the parts of a plan, which has these offsets in its
    session. Call add_part() for each part, the first one first."""

    offsets: Offsets
    operations: List[PlannedMicroOperation] = field(default_factory=list)
    states: List[State] = field(default_factory=list)
    needs: List[int] = field(default_factory=list)
    # The names of the profiles, which all allow the first state, since its set is empty; and the
    # profiles of each state as bits. Both are empty if the program prints no profiles.
    profile_names: Tuple[str, ...] = ()
    profile_bits: List[int] = field(default_factory=list)

    def add_part(self, listing: str) -> None:
        """Adds the states of a part, from what `list --json` printed, and the operations if it is
        the first part: all parts have the same. Of a further part only picks are added: its
        prefixes are those of the first part. In the program the picks of each further part begin
        with the same number; here they get the numbers that follow those of the states so far.
        PlanError for a line of another form."""
        is_first = not self.states
        number_offset = 0 if is_first else len(self.states) - len(self.operations) - 1
        for line in listing.rstrip('\n').split('\n'):
            try:
                fields = json.loads(line)
                if 'op' not in fields:
                    if is_first or fields['kind'] == 'pick':
                        self.add_state(fields, number_offset)
                elif is_first:
                    self.operations.append(parse_operation(fields, self.offsets))
                    self.needs.append(set_of(fields['needs']))
            except LINE_FAULTS as error:
                raise PlanError(f'crashfs list printed: {line}') from error

    def add_state(self, fields: Dict[str, Any], number_offset: int) -> None:
        """Adds the state of a line. Its number in its part plus number_offset is unique among all
        parts; a prefix has the same number in each. One of LINE_FAULTS for fields of another form;
        ValueError also if a profile isn't among those of the first state, or if only some states
        have profiles."""
        state = parse_state(fields, self.offsets)
        is_same_as_prefix = fields['same'] <= len(self.operations)
        same = state.same + (0 if is_same_as_prefix else number_offset)
        self.states.append(state._replace(number=state.number + number_offset, same=same))
        if 'profiles' in fields:
            self.profile_names = self.profile_names or tuple(fields['profiles'])
            self.profile_bits.append(set_of(map(self.profile_names.index, fields['profiles'])))
        if len(self.profile_bits) not in (0, len(self.states)):
            raise ValueError('profiles of some states only')


def parse_operation(fields: Dict[str, Any], offsets: Offsets) -> PlannedMicroOperation:
    """The micro-operation of a line of `list --json`, in places and lines of the session. KeyError
    if a field is missing, IndexError if offsets.lines lacks the line, TypeError for what is no
    number in its place."""
    details = ' '.join(str(fields[key]) for key in DETAILS if key in fields)
    line = fields['line']
    return PlannedMicroOperation(
        fields['op'] + offsets.operations,
        fields['kind'],
        fields.get('path') or '',
        details,
        offsets.lines[line - 1] if offsets.lines else line,
    )


def parse_state(fields: Dict[str, Any], offsets: Offsets) -> State:
    """The state of a line of `list --json`, with its number in the session; the numbers of its set,
    such as its end, stay places of the plan. KeyError for another kind or a missing field,
    TypeError for what is no number in its place."""
    kind = fields['kind']
    if kind == 'pick':
        numbers = tuple(fields['places'])
    else:
        names = {'prefix': ('end',), 'hole': ('missing', 'end')}[kind]
        numbers = tuple(fields[name] for name in names)
    return State(
        fields['state'] + offsets.states,
        kind,
        numbers,
        fields['says'] + offsets.says,
        fields['same'] + offsets.states,
    )
