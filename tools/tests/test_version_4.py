"""Trace version 4 by the second reading: random traces, and checks of them that share nothing with
it: the rules one by one, a fold by hand, and a real directory."""

from __future__ import annotations

import json
import os
import unittest
from functools import lru_cache
from typing import Dict, Iterator, List, Tuple

from crashfs_tools.reading import Reading, ReadingFault, make_plan, parse_trace
from crashfs_tools.reading.classes import SetClasses
from crashfs_tools.reading.every import count_sets, every_set
from crashfs_tools.reading.micro import (
    ChangeSize,
    CreateEntry,
    DeleteEntry,
    LinkEntry,
    MicroOperation,
    MoveEntry,
    RenameHalf,
    SetRights,
    WriteBlock,
)
from crashfs_tools.reading.names import DIRECTORY, Inode
from crashfs_tools.reading.order import Order, order_under, profile_names
from crashfs_tools.reading.place_sets import places_of
from crashfs_tools.reading.trees import Trees

from .plain_rules import chains
from .random_traces import RandomTrace
from .support import InFolder

TRACES = 300
# All allowed sets are gone through of traces that have no more.
MOST_SETS = 600
# A path's kind, owner, group and mode, and its bytes or a link's target.
Shown = Tuple[str, str, str, str, bytes]


@lru_cache(None)
def readings(version: int) -> List[Tuple[str, Reading]]:
    """Random traces without the line at the end that doesn't fit."""
    found = []
    for seed in range(TRACES):
        text = RandomTrace(version, seed).text()
        try:
            found.append((text, parse_trace(text.encode())))
        except ReadingFault:
            text = text[: text[:-1].rindex('\n') + 1]
            found.append((text, parse_trace(text.encode())))
    return found


def small_ones() -> Iterator[Tuple[Reading, List[int]]]:
    """The random traces of version 4 that have few allowed sets, with these."""
    for _, reading in readings(4):
        order = Order(reading)
        if count_sets(order) <= MOST_SETS:
            yield reading, list(every_set(order))


def shown_tree(trees: Trees, places: int) -> Dict[str, Shown]:
    return {
        path: (item.kind, *item.rights, item.content or b'')
        for path, item in trees.tree(places).items()
    }


class Rules(unittest.TestCase):
    def test_needs_are_those_of_the_rules_one_by_one(self) -> None:
        for version in (1, 2, 3, 4):
            for _, reading in readings(version):
                for profile in profile_names(reading):
                    self.assertEqual(Order(reading, profile).needs, list(chains(reading, profile)))

    def test_a_profile_allows_what_a_stricter_one_does_and_all_allow_prefixes(self) -> None:
        half_renames = 0
        for _, reading in readings(4):
            blocks, ordered, journal = (
                Order(reading, name) for name in ('blocks', 'ordered', 'journal')
            )
            for one, two, three in zip(blocks.needs, ordered.needs, journal.needs):
                self.assertEqual((one & ~two, two & ~three), (0, 0))
            for count in range(journal.count + 1):
                prefix = (1 << count) - 1
                is_half = (
                    count > 0 and reading.operations[count - 1].rename_half is RenameHalf.FIRST
                )
                self.assertTrue(blocks.is_allowed(prefix))
                self.assertEqual(journal.is_allowed(prefix), not is_half)
                half_renames += is_half
        self.assertGreater(half_renames, 20)

    def test_sets_of_a_profile_are_those_that_it_may_leave(self) -> None:
        halves = 0
        for reading, members in small_ones():
            for name in ('blocks', 'ordered', 'journal'):
                order = order_under(reading, name)
                wanted = list(filter(Order(reading, name).is_allowed, members))
                self.assertEqual(list(every_set(order)), wanted)
                self.assertEqual(list(filter(order.is_allowed, members)), wanted)
                self.assertEqual(count_sets(order), len(wanted))
                halves += len(order.units)
        self.assertGreater(halves, 20)


class ByHand:
    """The fold of some micro-operations, and what each of them relies on."""

    def __init__(self, reading: Reading) -> None:
        self.entries = dict(reading.start)
        self.rights = {Inode(DIRECTORY, it): one for it, one in reading.start_rights.items()}
        self.data: Dict[int, bytearray] = {}
        self.sizes: Dict[int, int] = {}
        for file, data in reading.initial_data.items():
            self.data[file], self.sizes[file] = bytearray(data.all_bytes()), data.length
        kinds = {node.number: node for node in reading.start.values() if node.kind != DIRECTORY}
        for operation in reading.operations:
            if isinstance(operation, CreateEntry) and operation.node.kind != DIRECTORY:
                kinds[operation.node.number] = operation.node
        self.files = kinds
        for file, rights in reading.initial_rights.items():
            self.rights[kinds[file]] = rights

    def do(self, operation: MicroOperation) -> None:
        if isinstance(operation, CreateEntry):
            assert operation.entries[0] not in self.entries
            self.entries[operation.entries[0]] = operation.node
            self.rights[operation.node] = operation.rights
        elif isinstance(operation, LinkEntry):
            there = self.entries.get(operation.entries[0])
            assert (
                there is None
                or operation.rename_half is RenameHalf.FIRST
                and there.kind != DIRECTORY
            )
            self.entries[operation.entries[0]] = operation.node
        elif isinstance(operation, DeleteEntry):
            assert self.entries.pop(operation.entries[0]) == operation.node
            assert operation.node.kind != DIRECTORY or not self.has_entries(operation.node)
        elif isinstance(operation, MoveEntry):
            self.move(operation)
        elif isinstance(operation, SetRights):
            node = Inode(DIRECTORY, operation.directory_number or 0)
            file = operation.file_number
            self.rights[node if file is None else self.files[file]] = operation.rights
        else:
            self.change(operation)

    def move(self, operation: MoveEntry) -> None:
        source, target = operation.entries
        there = self.entries.get(target)
        assert self.entries.pop(source) == operation.node
        assert (there and there.kind == DIRECTORY) in (None, operation.is_directory_move)
        assert there is None or there.kind != DIRECTORY or not self.has_entries(there)
        self.entries[target] = operation.node

    def has_entries(self, directory: Inode) -> bool:
        return any(number == directory.number for number, _ in self.entries)

    def change(self, operation: MicroOperation) -> None:
        if operation.file_number is None:
            return
        data = self.data.setdefault(operation.file_number, bytearray())
        if isinstance(operation, ChangeSize):
            if operation.length < self.sizes.get(operation.file_number, 0):
                del data[operation.length :]
            self.sizes[operation.file_number] = operation.length
        elif isinstance(operation, WriteBlock):
            end = operation.file_offset + len(operation.data)
            data.extend(bytes(max(0, end - len(data))))
            data[operation.file_offset : end] = operation.data

    def tree(self) -> Dict[str, Shown]:
        """Each entry by the path that leads up from it to the root: all have one."""
        places = {node: entry for entry, node in self.entries.items() if node.kind == DIRECTORY}
        assert len(places) == sum(node.kind == DIRECTORY for node in self.entries.values())
        tree = {'/': self.shown(Inode(DIRECTORY, 0))}
        for entry, node in self.entries.items():
            path, steps = '', 0
            while entry != (0, ''):
                path = f'/{entry[1]}{path}'
                above = Inode(DIRECTORY, entry[0])
                entry = places[above] if entry[0] else (0, '')
                steps += 1
                assert steps <= len(places) + 1, 'a circle'
            assert path not in tree
            tree[path] = self.shown(node)
        return tree

    def shown(self, node: Inode) -> Shown:
        data = b''
        if node.kind != DIRECTORY:
            size = self.sizes.get(node.number, 0)
            data = bytes(self.data.get(node.number, b'')[:size]).ljust(size, b'\0')
        return (node.kind, *self.rights[node], data)


class TreesOfSets(unittest.TestCase):
    def test_each_allowed_set_leaves_the_tree_of_a_fold_by_hand(self) -> None:
        moved = sets = 0
        for reading, members in small_ones():
            trees = Trees(reading)
            for places in members:
                by_hand = ByHand(reading)
                for place in places_of(places):
                    by_hand.do(reading.operations[place])
                self.assertEqual(shown_tree(trees, places), by_hand.tree())
                moved += bool(places & trees.directory_moves)
                sets += 1
        self.assertGreater(moved, 500)
        self.assertGreater(sets, 2 * moved)

    def test_equal_trees_have_equal_digests_and_others_have_others(self) -> None:
        for reading, members in small_ones():
            trees = Trees(reading)
            shown: Dict[object, object] = {}
            for places in members:
                tree = shown_tree(trees, places)
                self.assertEqual(shown.setdefault(trees.digest(places), tree), tree)
            self.assertEqual(len(shown), len({repr(tree) for tree in shown.values()}))

    def test_different_sets_are_the_first_of_each_tree_and_number_of_lines(self) -> None:
        different = 0
        for reading, members in small_ones():
            trees, seen = Trees(reading), {}
            for places in members:
                tree = repr(shown_tree(trees, places)), trees.count_says(places)
                seen.setdefault(tree, places)
            found = list(SetClasses(reading, Order(reading)).different_sets())
            self.assertEqual(found, list(seen.values()))
            different += len(found)
        self.assertGreater(different, 2000)


class OnADirectory(InFolder):
    """The whole trace, made in a real directory by the calls that its lines name."""

    def test_the_last_state_is_what_the_calls_leave(self) -> None:
        for number, (text, reading) in enumerate(readings(4)):
            top = self.path(str(number))
            for line in text.splitlines():
                Calls(top).do(json.loads(line))
            plan = make_plan(reading)
            wanted = {
                path: (kind, mode if kind != 'symlink' else '777', data)
                for path, (kind, _, _, mode, data) in shown_tree(
                    plan.trees, plan.states[-1].place_set
                ).items()
            }
            self.assertEqual(dict(found_below(top)), wanted)

    def test_lines_that_have_no_place_are_calls_that_fail(self) -> None:
        refused = 0
        for seed in range(TRACES):
            text = RandomTrace(4, seed).text()
            try:
                parse_trace(text.encode())
            except ReadingFault:
                refused += 1
                *lines, last = text.splitlines()
                top = self.path(f'refused{seed}')
                for line in lines:
                    Calls(top).do(json.loads(line))
                with self.assertRaises((OSError, NotInTraces)):
                    Calls(top).do(json.loads(last))
        self.assertGreater(refused, 10)


class NotInTraces(Exception):
    """A call that works, and that no trace may have."""


class Calls:
    """Makes the lines of a trace in a directory."""

    def __init__(self, top: str) -> None:
        self.top = top

    def at(self, fields: Dict[str, str], key: str = 'path') -> str:
        above = fields[key]
        while above:
            above = above.rpartition('/')[0]
            if os.path.islink(self.top + above):
                raise NotInTraces('a name below a symbolic link')
        return self.top + fields[key].rstrip('/')

    def do(self, fields: Dict[str, str]) -> None:
        if 'trace' in fields:
            os.mkdir(self.top)
            os.chmod(self.top, int(fields['mode'], 8))
            return
        word = fields.get('op') or fields['start']
        getattr(self, f'do_{word}')(fields)

    def do_dir(self, fields: Dict[str, str]) -> None:
        os.mkdir(self.at(fields))
        os.chmod(self.at(fields), int(fields['mode'], 8))

    do_mkdir = do_dir

    def do_file(self, fields: Dict[str, str]) -> None:
        """A start file, or one that an operation makes."""
        with open(self.at(fields), 'xb') as file:
            for part in fields.get('parts', [fields]):
                file.seek(int(part.get('at', 0)))
                file.write(bytes_of(part))
            file.truncate(int(fields.get('length', file.tell())))
        os.chmod(self.at(fields), int(fields['mode'], 8))

    do_creat = do_file

    def do_symlink(self, fields: Dict[str, str]) -> None:
        os.symlink(fields['target'], self.at(fields))

    def do_link(self, fields: Dict[str, str]) -> None:
        source, target = ('from', 'path') if 'start' in fields else ('from', 'to')
        self.refuse_link(fields, source)
        os.link(self.at(fields, source), self.at(fields, target))

    def do_unlink(self, fields: Dict[str, str]) -> None:
        os.unlink(self.at(fields))

    def do_rmdir(self, fields: Dict[str, str]) -> None:
        os.rmdir(self.at(fields))

    def do_rename(self, fields: Dict[str, str]) -> None:
        os.rename(self.at(fields, 'from'), self.at(fields, 'to'))

    def do_write(self, fields: Dict[str, str]) -> None:
        self.refuse_link(fields)
        with open(self.at(fields), 'r+b') as file:
            file.seek(int(fields['offset']))
            file.write(bytes_of(fields))

    def do_truncate(self, fields: Dict[str, str]) -> None:
        self.refuse_link(fields)
        os.truncate(self.at(fields), int(fields['length']))

    def do_chmod(self, fields: Dict[str, str]) -> None:
        self.refuse_link(fields)
        os.chmod(self.at(fields), int(fields['mode'], 8))

    def do_chown(self, fields: Dict[str, str]) -> None:
        os.lstat(self.at(fields))

    def do_fsync(self, fields: Dict[str, str]) -> None:
        self.refuse_link(fields)
        os.stat(self.at(fields))

    def do_fdatasync(self, fields: Dict[str, str]) -> None:
        self.refuse_link(fields)
        with open(self.at(fields), 'r+b'):
            pass

    do_fsync_range = do_fdatasync

    def do_sync(self, fields: Dict[str, str]) -> None:
        pass

    do_say = do_sync

    def refuse_link(self, fields: Dict[str, str], key: str = 'path') -> None:
        if os.path.islink(self.at(fields, key)):
            raise NotInTraces('a call by a symbolic link')


def bytes_of(fields: Dict[str, str]) -> bytes:
    return fields['text'].encode() if 'text' in fields else bytes.fromhex(fields.get('bytes', ''))


def found_below(top: str) -> Iterator[Tuple[str, Tuple[str, str, bytes]]]:
    """The kind, mode and bytes of all that is in a directory, itself as the root."""
    yield '/', (DIRECTORY, f'{os.stat(top).st_mode & 0o777:o}', b'')
    for here, names, files in os.walk(top):
        for name in [*names, *files]:
            path = os.path.join(here, name)
            mode = f'{os.lstat(path).st_mode & 0o777:o}'
            if os.path.islink(path):
                shown = 'symlink', '777', os.readlink(path).encode()
            elif os.path.isdir(path):
                shown = DIRECTORY, mode, b''
            else:
                with open(path, 'rb') as file:
                    shown = 'file', mode, file.read()
            yield path[len(top) :], shown


if __name__ == '__main__':
    unittest.main()
