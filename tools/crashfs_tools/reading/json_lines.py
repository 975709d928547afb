"""One line's JSON, as strictly as the program reads it."""

from __future__ import annotations

import json
import math
from typing import Any, Dict, List

from .faults import syntax_fault

# The most levels of objects and arrays, one in the other.
DEPTH = 127
# The largest number of a trace, and how many digits it has.
LARGEST_NUMBER, DIGITS = 2**64 - 1, 20


def read_object(text: str) -> Dict[str, Any]:
    """The keys and values of a line, given by its text; of two equal keys the last one counts.
    LineFault for what the program doesn't read: no JSON, no object, a number that overflows, values
    nested deeper than DEPTH levels, half of a surrogate pair."""
    value = load_json(text)
    if not isinstance(value, dict):
        raise syntax_fault('no JSON object')
    # Only a text with more brackets can have more levels, and only an escape gives half of a pair.
    if text.count('[') + text.count('{') > DEPTH and has_more_levels(value, DEPTH):
        raise syntax_fault(f'values nested deeper than {DEPTH} levels')
    if '\\u' in text:
        refuse_half_surrogates(value)
    return value


def load_json(text: str) -> Any:
    """The value of a JSON text, with numbers as parse_integer() and parse_float() read them.
    LineFault if it is no JSON, has a number that overflows, or is nested so deep that Python can't
    read it."""
    try:
        return json.loads(
            text, parse_int=parse_integer, parse_float=parse_float, parse_constant=refuse_constant
        )
    except (ValueError, RecursionError) as error:
        raise syntax_fault(f'no JSON: {error}') from error


def parse_integer(text: str) -> float:
    """The number that an integer's text means. A number with a minus sign, or with more than DIGITS
    digits, becomes a float, which no key of a trace accepts. ValueError if the float is infinite.
    """
    return int(text) if text[0] != '-' and len(text) <= DIGITS else parse_float(text)


def parse_float(text: str) -> float:
    """The float that a text means; ValueError if it is infinite."""
    value = float(text)
    if math.isinf(value):
        raise ValueError(f'the number {text} is too large')
    return value


def refuse_constant(text: str) -> None:
    """Raises a ValueError for `NaN`, `Infinity` or `-Infinity`, which Python reads though they are
    no JSON."""
    raise ValueError(f'{text} is no number')


def has_more_levels(value: Any, most_levels: int) -> bool:
    """Whether a value has more than most_levels levels of objects and arrays. A text or a number
    has none; an empty array has one."""
    level_values = [value]
    for _ in range(most_levels):
        level_values = [inner for outer in level_values for inner in inner_values(outer)]
    return any(isinstance(inner, (dict, list)) for inner in level_values)


def inner_values(value: Any) -> List[Any]:
    """The values of an object or an array, without its keys; none if `value` is neither."""
    if isinstance(value, dict):
        return list(value.values())
    return value if isinstance(value, list) else []


def refuse_half_surrogates(value: Any) -> None:
    """LineFault if a value has a text, or a key, with half of a surrogate pair, at any level."""
    try:
        json.dumps(value, ensure_ascii=False).encode('utf-8')
    except UnicodeEncodeError as error:
        raise syntax_fault('half of a surrogate pair') from error


def is_trace_number(value: Any) -> bool:
    """Whether a value is a number that a trace may have: an int from 0 to LARGEST_NUMBER. A boolean
    is none."""
    return type(value) is int and 0 <= value <= LARGEST_NUMBER


def read_array(line: bytes) -> List[Any]:
    """The values of a line that is a JSON array. LineFault if the line isn't UTF-8 or no array, and
    as load_json(). What the values are isn't checked."""
    try:
        text = line.decode('utf-8')
    except UnicodeDecodeError as error:
        raise syntax_fault('no UTF-8') from error
    value = load_json(text)
    if not isinstance(value, list):
        raise syntax_fault('no JSON array')
    return value
