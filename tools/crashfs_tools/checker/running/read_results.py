"""Reads the JSON of a check. Any file may be given: the type and range of each value are looked at
before it is used."""

from __future__ import annotations

import json
from typing import Any, Callable, Dict, FrozenSet, List, Optional, Tuple, TypeVar

from crashfs_tools.checker.options import Shard
from crashfs_tools.checker.states.plan import (
    AllStates,
    CutOff,
    PlannedMicroOperation,
    Needs,
    Plan,
    SetProfiles,
    State,
)
from crashfs_tools.common.command import Refused
from crashfs_tools.common.trace_lines import TraceLine

from .results import FORMAT, AllResults, Head, Results
from .runner import BAD, GOOD, NO_ANSWER, Outcome

MOST = 1 << 40

# Checks a value of the JSON and returns it, maybe as another type; ValueError if it is wrong.
Parse = Callable[[Any], Any]
Value = TypeVar('Value')


def read_json(path: str) -> AllResults:
    """The results in a file of --json, also of a check that was stopped or still runs. Refused if
    the file can't be read, wasn't written by --json, or is of another FORMAT."""
    try:
        with open(path, encoding='utf-8', errors='surrogateescape') as file:
            fields = json.load(file)
        head = parse_head(fields)
        windows = [parse_window(window_fields) for window_fields in fields['windows']]
        if not windows and not head.stopped:
            raise ValueError('no window')
        not_done = tuple(map(parse_text, parse_items(fields.get('not_done', []))))
        return AllResults(head, windows, options_with_findings(fields), not_done)
    except OSError as error:
        raise Refused(f'{path}: {error.strerror}') from error
    except (ValueError, KeyError, TypeError, AttributeError, RecursionError) as error:
        raise Refused(f'{path} is no report of crashfs-check') from error


def parse_head(fields: Dict[str, Any]) -> Head:
    """The head of a report, from the fields of the whole report. What older reports lack is False
    or 0. Like all parsers of fields here, it raises a ValueError, KeyError, TypeError or
    AttributeError for fields that a check doesn't write."""
    if parse_integer(fields['crashfs-check']) != FORMAT:
        raise ValueError('another format')
    part, parts = parse_pair(fields['shard'])
    if not 1 <= part <= parts:
        raise ValueError('no such part')
    lines = [
        TraceLine(*parse_record(item, parse_integer, *[parse_text] * 5))
        for item in parse_items(fields['lines'])
    ]
    return Head(
        trace=parse_text(fields['trace']),
        digest=parse_text(fields['sha256']),
        command=[parse_text(word) for word in parse_items(fields['command'])],
        shard=Shard(part, parts),
        unproved=parse_boolean(fields['unproved']),
        lines={line.number: line for line in lines},
        stopped=parse_text(fields['stopped']),
        cut_off=[CutOff(*parse_pair(item)) for item in fields['cut_off']],
        has_rest=parse_boolean(fields.get('has_rest', False)),
        refused_version=parse_integer(fields.get('refused_version', 0)),
    )


def options_with_findings(fields: Dict[str, Any]) -> Tuple[str, ...]:
    """Those of the options `--nested` and `--disks` of which a report has findings, from the fields
    of the whole report. The form of the findings isn't checked."""
    findings_by_option = {'--nested': fields.get('recoveries'), '--disks': fields.get('disks')}
    return tuple(option for option, findings in findings_by_option.items() if findings)


def parse_window(fields: Dict[str, Any]) -> Results:
    """The results of a window from its fields; exceptions as in parse_head(). A report of older
    tools may lack second runs, chosen states and seconds: these are then empty, None and 0."""
    plan = parse_plan(fields)
    return Results(
        plan,
        outcomes=parse_values_by_state(plan, fields['outcomes'], parse_outcome),
        numbers_before=parse_values_by_state(plan, fields['known'], parse_integer),
        reruns=parse_values_by_state(plan, fields.get('reruns', {}), parse_outcome),
        chosen_numbers=parse_chosen_numbers(plan, fields.get('chosen')),
        seconds_per_state=parse_seconds(fields.get('seconds', 0.0)),
    )


def parse_chosen_numbers(plan: Plan, value: Any) -> Optional[FrozenSet[int]]:
    """The numbers of the chosen states, which must be states of the plan; None for None: there was
    no choice, so that all are tried. ValueError for anything else."""
    numbers = None if value is None else frozenset(map(parse_integer, parse_items(value)))
    if numbers is not None and not all(map(plan.has_state, numbers)):
        raise ValueError('no state of the plan')
    return numbers


def parse_seconds(value: Any) -> float:
    """A duration in seconds, from 0 to below MOST. ValueError for anything else."""
    if type(value) not in (int, float) or not 0 <= value < MOST:
        raise ValueError('no number')
    return float(value)


def parse_plan(fields: Dict[str, Any]) -> Plan:
    """The plan of a window from its fields; all_states and profiles may be missing. Exceptions as
    in parse_head(), among them those of parse_states() and parse_needs()."""
    operations = [
        PlannedMicroOperation(
            *parse_record(item, parse_integer, parse_text, parse_text, parse_text, parse_integer)
        )
        for item in parse_items(fields['operations'])
    ]
    first = parse_integer(fields['first'])
    listed = parse_states(fields['states'], first, len(operations))
    needs = parse_needs(fields['needs'], len(operations))
    all_states = parse_all_states(fields.get('all_states'), range(first, first + len(listed)))
    profiles = parse_set_profiles(fields.get('profiles', [[], [], '']), len(listed))
    return Plan(operations, listed, needs, first, all_states, profiles)


def parse_states(values: Any, first: int, operation_count: int) -> List[State]:
    """The listed states of a plan with operation_count micro-operations. ValueError unless they are
    numbered on from `first`, and each prefix is there, the shorter ones first. Whether `same` is
    the number of a listed state isn't checked."""
    listed = [
        parse_state(value, number, operation_count)
        for number, value in enumerate(parse_items(values), first)
    ]
    ends = [state.numbers[0] for state in listed if state.family == 'prefix']
    if ends != list(range(operation_count + 1)):
        raise ValueError('other prefixes')
    return listed


def parse_needs(values: Any, operation_count: int) -> Needs:
    """The set that each of operation_count micro-operations needs, from texts of numbers as int()
    reads them to the base 16. ValueError for anything else, for another count, and if one needs a
    later one. Whether each set has its own place, and all that its members need, isn't checked."""
    masks = [int(parse_text(value), 16) for value in parse_items(values)]
    if len(masks) != operation_count or any(
        not 0 <= mask < 2 << place for place, mask in enumerate(masks)
    ):
        raise ValueError('another count of needs, or a need of a later micro-operation')
    return Needs(masks)


def parse_set_profiles(value: Any, state_count: int) -> SetProfiles:
    """The profiles of each of state_count listed states, or of none. ValueError for anything else,
    such as a wanted profile that isn't among the names."""
    names, bit_sets, wanted = parse_record(value, parse_items, parse_items, parse_text)
    names = tuple(map(parse_text, names))
    allowed = tuple(parse_integer(item, (1 << len(names)) - 1) for item in bit_sets)
    if len(allowed) not in (0, state_count) or wanted not in ('', *names):
        raise ValueError('no profiles of the states')
    return SetProfiles(names, allowed, wanted)


def parse_all_states(value: Any, plan_numbers: range) -> Optional[AllStates]:
    """What is known of all crash states; None for None, if only families were asked for. The drawn
    states must be among the numbers of the plan's states. ValueError for anything else."""
    if value is None:
        return None
    sets, are_listed, are_from_reading, most_states, families, drawn = parse_record(
        value,
        parse_count_or_none,
        parse_boolean,
        parse_boolean,
        parse_integer,
        parse_integer,
        parse_items,
    )
    if not all(parse_integer(number) in plan_numbers for number in drawn):
        raise ValueError('no state of the plan')
    return AllStates(sets, are_listed, are_from_reading, most_states, families, tuple(drawn))


def parse_count_or_none(value: Any) -> Optional[int]:
    """A whole number from 0 on, of any size, or None. ValueError for anything else."""
    if value is not None and (type(value) is not int or value < 0):
        raise ValueError('no number')
    return value


def parse_state(value: Any, number: int, operation_count: int) -> State:
    """A state of a plan with operation_count micro-operations. The state must have this number, and
    places that a state of its family can have. ValueError for anything else."""
    own_number, family, numbers, says, same = parse_record(
        value, parse_integer, parse_text, parse_items, parse_integer, parse_integer
    )
    places = tuple(parse_integer(place, operation_count) for place in numbers)
    if own_number != number or not is_of_family(family, places, operation_count):
        raise ValueError('no state of a plan')
    return State(number, family, places, says, same)


def is_of_family(family: str, numbers: Tuple[int, ...], operation_count: int) -> bool:
    """Whether a state of this family can have these numbers, each from 0 to operation_count, in a
    plan with operation_count micro-operations. False for an unknown family."""
    if family == 'prefix':
        return len(numbers) == 1
    if family == 'hole':
        return len(numbers) == 2 and numbers[0] + 1 < numbers[1]
    return family == 'pick' and operation_count not in numbers


def parse_outcome(value: Any) -> Outcome:
    """The outcome of a state, with a known result. ValueError for anything else."""
    result, cause, output = parse_record(value, parse_text, parse_text, parse_text)
    if result not in (GOOD, BAD, NO_ANSWER):
        raise ValueError('no result of a command')
    return Outcome(result, cause, output)


def parse_values_by_state(
    plan: Plan, values: Dict[str, Any], parse_value: Callable[[Any], Value]
) -> Dict[int, Value]:
    """A map of values by the numbers of states of the plan, from a map whose keys are these numbers
    as texts that int() reads. parse_value() checks each value. ValueError for another key,
    AttributeError if `values` is no map, and what parse_value() raises."""
    values_by_state = {int(number): parse_value(value) for number, value in values.items()}
    if not all(map(plan.has_state, values_by_state)):
        raise ValueError('no state of the plan')
    return values_by_state


def parse_record(values: Any, *parsers: Parse) -> Tuple[Any, ...]:
    """The items of a list, each checked by the parser at its place. ValueError for what is no list,
    or has more or fewer items than there are parsers; and what the parsers raise."""
    if len(parse_items(values)) != len(parsers):
        raise ValueError('a list of another length')
    return tuple(parse(item) for parse, item in zip(parsers, values))


def parse_pair(value: Any) -> Tuple[int, int]:
    """Two whole numbers from 0 on. ValueError for anything else."""
    first, second = parse_record(value, parse_integer, parse_integer)
    return first, second


def parse_items(value: Any) -> List[Any]:
    """The items of a list, of any types. ValueError for what is no list."""
    if type(value) is not list:
        raise ValueError('no list')
    return value


def parse_integer(value: Any, most: int = MOST) -> int:
    """A whole number from 0 to `most`. ValueError for anything else."""
    if type(value) is not int or not 0 <= value <= most:
        raise ValueError('no number')
    return value


def parse_text(value: Any) -> str:
    """A text that can be written as UTF-8, with bytes that aren't UTF-8 as surrogateescape keeps
    them. ValueError for anything else."""
    if type(value) is not str:
        raise ValueError('no text')
    value.encode('utf-8', 'surrogateescape')
    return value


def parse_boolean(value: Any) -> bool:
    """True or false. ValueError for anything else."""
    if type(value) is not bool:
        raise ValueError('neither true nor false')
    return value
