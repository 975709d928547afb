"""The names by which users of the crates look for a call or a type: each is where the list says."""

from __future__ import annotations

import re
import unittest
from pathlib import Path
from typing import Dict, List, NamedTuple

TOP = Path(__file__).resolve().parents[2]
LISTED = TOP / 'tools' / 'tests' / 'data' / 'public_calls.txt'
PAGE = TOP / 'docs' / 'internals' / 'ARCHITECTURE.md'
# A name that users look for, what it is called, and the crate that has it, if these are others.
LISTED_NAME = re.compile(r'(\w+)(?:=(\w+))?(?:@(\w+))?')


class Call(NamedTuple):
    """A name that users look for in a crate, what it is called, and the crate that has it."""

    crate: str
    name: str
    called: str
    where: str


def listed_calls(text: str) -> List[Call]:
    """The calls and types that a list has, a crate on each line with its names."""
    found = []
    for line in text.splitlines():
        crate, *names = line.split()
        for written in names if crate != '#' else []:
            match = LISTED_NAME.fullmatch(written)
            assert match is not None, written
            name, called, where = match.groups()
            found.append(Call(crate, name, called or name, where or crate))
    return found


def source_of(crate: str) -> str:
    """All text of a crate's sources, without its tests."""
    files = sorted((TOP / 'crates' / crate / 'src').glob('*.rt'))
    files += sorted((TOP / 'crates' / crate / 'src').glob('[!t]*/*.rt'))
    return '\n'.join(file.read_text('utf-8') for file in files)


def is_public(name: str, source: str) -> bool:
    """Whether a source has a public item of that name, a trait's method, or passes one on."""
    item = rf'pub (?:const )?(?:fn|struct|enum|trait) {name}\b'
    method = rf'^    (?:final )?fn {name}\b'
    passed = rf'pub use [^;]*\b{name}\b'
    return bool(re.search(f'{item}|{method}|{passed}', source, re.M))


class PublicCalls(unittest.TestCase):
    calls = listed_calls(LISTED.read_text('utf-8'))

    def test_a_listed_name_says_where_it_is(self) -> None:
        self.assertEqual(
            listed_calls('# a b\ncs_a B C=d E@cs_f G=h@cs_i\n'),
            [
                Call('cs_a', 'B', 'B', 'cs_a'),
                Call('cs_a', 'C', 'd', 'cs_a'),
                Call('cs_a', 'E', 'E', 'cs_f'),
                Call('cs_a', 'G', 'h', 'cs_i'),
            ],
        )

    def test_no_name_is_twice_in_a_crate(self) -> None:
        names = [(call.crate, call.name) for call in self.calls]
        self.assertGreater(len(names), 80)
        self.assertEqual(sorted(names), sorted(set(names)))

    def test_each_name_is_where_the_list_says(self) -> None:
        sources: Dict[str, str] = {}
        for call in self.calls:
            source = sources.setdefault(call.where, source_of(call.where))
            self.assertTrue(is_public(call.called, source), f'{call.where} has no {call.called}')

    def test_the_page_names_only_listed_calls_as_uncalled(self) -> None:
        """Those that no command calls are in the list."""
        section = PAGE.read_text('utf-8').split('public_calls.txt', 1)[1].split('\n\n', 1)[0]
        known = {call.name for call in self.calls}
        self.assertLessEqual(set(re.findall('`(\\w+)`', section)), known)
