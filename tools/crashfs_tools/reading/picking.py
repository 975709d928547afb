"""The command `picks`: families of sets, all allowed sets, how many they are, and sets drawn."""

from __future__ import annotations

import json
from itertools import islice
from typing import Dict, Iterator, List

from .classes import SetClasses
from .every import MOST_SETS, count_sets, drawn_sets, every_set
from .faults import ReadingFault, UsageFault
from .lines import PROFILES
from .order import Order, order_under
from .place_sets import places_of
from .plan import family_sets
from .trees import Trees
from .trace import Reading

DEFAULT_MOST = 1_000_000
# The values that each option may have that is a number.
RANGES = {'--most': range(1, 16_777_217), '--sample': range(1, 16_385), '--seed': range(2**64)}
OPTIONS_OF_EVERY = ('--different', '--most', '--count', '--profile')

# The options of a command line, each with its value: an empty text if it takes none.
Options = Dict[str, str]


def refuse_picks_options(options: Options) -> None:
    """UsageFault unless the options of `picks` ask for exactly one of --every, --sample and the
    families (--lost, --files or both), go together, and have values in their ranges."""
    has_families = bool({'--lost', '--files'} & options.keys())
    if ('--every' in options) + ('--sample' in options) + has_families != 1:
        raise UsageFault('one of --every, --sample, --lost and --files is needed')
    of_every = [option for option in OPTIONS_OF_EVERY if option in options]
    if of_every and '--every' not in options:
        raise UsageFault(f'{of_every[0]} goes with --every')
    not_with_count = [option for option in of_every if option != '--count']
    if '--count' in options and not_with_count:
        raise UsageFault(f"{not_with_count[0]} doesn't go with --count")
    if ('--seed' in options) != ('--sample' in options):
        raise UsageFault('--sample and --seed go together')
    if options.get('--profile', PROFILES[0]) not in PROFILES:
        raise UsageFault(f"invalid value '{options['--profile']}' for '--profile <F>'")
    for option in RANGES:
        if option in options:
            option_number(options, option)


def option_number(options: Options, option: str) -> int:
    """The number that is the value of an option of RANGES. UsageFault if the value is no number, or
    not in the option's range. KeyError if the option isn't given."""
    text = options[option]
    if not is_number_text(text) or int(text) not in RANGES[option]:
        raise UsageFault(f"invalid value '{text}' for '{option} <N>'")
    return int(text)


def is_number_text(text: str) -> bool:
    """Whether a text is a number that eight bytes hold: digits only, at most 20 of them. Zeros in
    front are allowed, and count as digits."""
    return text.isascii() and text.isdecimal() and len(text) <= 20 and int(text) < 2**64


def picks_lines(reading: Reading, options: Options) -> Iterator[str]:
    """The lines that `picks` prints of a trace, for options that refuse_picks_options() accepts.
    ReadingFault, before the first line, if there are too many sets, or if traces of this version
    can't have the profile."""
    if '--count' in options:
        yield f'{count_text(count_sets(Order(reading)))}\n'
        return
    for places in picked_sets(reading, options):
        yield json.dumps(places, separators=(',', ':')) + '\n'


def count_text(count: int) -> str:
    """A number of sets as `picks --count` prints it: above MOST_SETS, `more than` and this
    number."""
    return str(count) if count <= MOST_SETS else f'more than {MOST_SETS}'


def picked_sets(reading: Reading, options: Options) -> Iterator[List[int]]:
    """The places of each set that the options ask for, in the order in which they are printed; a
    set of both families comes twice. The options must be some that refuse_picks_options() accepts.
    ReadingFault as sets_of_every() and, only when the first set is asked for, as drawn_sets()."""
    if '--every' in options:
        return sets_of_every(reading, options)
    if '--sample' in options:
        count, seed = option_number(options, '--sample'), option_number(options, '--seed')
        drawn = drawn_sets(Order(reading), count, seed)
        return (list(places_of(place_set)) for place_set in drawn)
    families = family_sets(Order(reading), Trees(reading), options)
    return (places for family in families for places in different_places(family))


def different_places(sets: Iterator[int]) -> Iterator[List[int]]:
    """The places of each set, ascending, as a stream. A set that came before is left out."""
    seen_sets = set()
    for place_set in sets:
        if place_set not in seen_sets:
            seen_sets.add(place_set)
            yield list(places_of(place_set))


def sets_of_every(reading: Reading, options: Options) -> Iterator[List[int]]:
    """The places of each set that --every asks for, with the options that go with it. All sets are
    found before the first one is returned: ReadingFault if there are more than --most, or if traces
    of this version can't have the profile."""
    order = order_under(reading, options.get('--profile', reading.profile))
    has_different = '--different' in options
    all_sets = SetClasses(reading, order).different_sets() if has_different else every_set(order)
    most = option_number(options, '--most') if '--most' in options else DEFAULT_MOST
    sets = list(islice(all_sets, most + 1))
    if len(sets) > most:
        raise ReadingFault(f'more than {most} sets')
    return (list(places_of(place_set)) for place_set in sets)
