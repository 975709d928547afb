"""The sub-packages of the tools: which may import which, and that no import goes in a circle."""

from __future__ import annotations

import ast
import re
import unittest
from graphlib import CycleError, TopologicalSorter
from pathlib import Path
from typing import Dict, Iterator, List, Set

from .support import TOOLS

PACKAGE = 'crashfs_tools'
# Each room with those that it may import, apart from itself.
ROOMS: Dict[str, Set[str]] = {
    'reading': set(),
    'common': {'reading'},
    'campaign': {'common'},
    'recorder.calls': {'common', 'recorder'},
    'recorder': {'common', 'recorder.calls'},
    'checker.states': {'common', 'reading', 'checker.options'},
    'checker.running': {'common', 'reading', 'checker.options', 'checker.states'},
    'disks': {'common'},
    'checker.findings': {
        'common',
        'reading',
        'disks',
        'checker.options',
        'checker.states',
        'checker.running',
    },
    'checker.report': {'common', 'checker.states', 'checker.running', 'checker.findings'},
    'checker.options': {'common'},
    'api': {
        'common',
        'checker',
        'checker.options',
        'checker.states',
        'checker.running',
        'checker.findings',
        'checker.report',
    },
    'checker': {
        'api',
        'common',
        'disks',
        'checker.options',
        'checker.states',
        'checker.running',
        'checker.findings',
        'checker.report',
    },
}
OPTIONS = ('checker.options', 'checker.address')
# The package itself, and the plugin.
INTERFACE = ('__init__', 'pytest_plugin')


def module_of(path: Path) -> str:
    return '.'.join(path.relative_to(TOOLS).with_suffix('').parts)


def modules() -> Dict[str, Path]:
    found = (TOOLS / PACKAGE).rglob('*.py')
    return {module_of(path): path for path in found if 'python_hook' not in path.parts}


def imports_of(name: str, path: Path, known: Set[str]) -> Iterator[str]:
    """The modules of the package that a module imports, wherever it does."""
    parts = name.split('.')
    for node in ast.walk(ast.parse(path.read_text('utf-8'))):
        if isinstance(node, ast.ImportFrom):
            base = '.'.join(parts[: len(parts) - node.level]) + '.' if node.level else ''
            base = (base + (node.module or '')).rstrip('.')
            named = [f'{base}.{it.name}' for it in node.names]
            yield from (it if it in known else base for it in named if it in known or base in known)


def room_of(name: str) -> str:
    """The room of a module: its package, or the module itself if others may import only it."""
    inner = name[len(PACKAGE) + 1 :]
    if inner in OPTIONS:
        return 'checker.options'
    if inner in INTERFACE:
        return 'api'
    rooms = [room for room in ROOMS if inner == room or inner.startswith(f'{room}.')]
    return max(rooms, key=len, default='')


def circle(imports: Dict[str, Set[str]]) -> List[str]:
    """Modules that import each other in a circle; none if there are none."""
    try:
        TopologicalSorter(imports).prepare()
    except CycleError as error:
        return list(reversed(error.args[1]))
    return []


def rooms_of_page(page: str) -> Dict[str, Set[str]]:
    """The rooms of ARCHITECTURE's table, each with those that it may import. `all of` a room means
    those within it."""
    found: Dict[str, Set[str]] = {}
    table = page.split('\n| Room |', 1)[1].split('\n\n', 1)[0]
    for row in table.splitlines()[2:]:
        room, _, imports = (cell.strip() for cell in row.strip('|').split('|'))
        names = set(re.findall('`([^`]+)`', imports))
        if imports.startswith('all of '):
            names |= {name for name in ROOMS if name.startswith(f'{room.strip("`")}.')}
        found[room.strip('`')] = names - {room.strip('`')}
    return found


class Rooms(unittest.TestCase):
    def test_the_page_has_each_room_and_what_it_may_import(self) -> None:
        page = (TOOLS.parent / 'docs' / 'internals' / 'ARCHITECTURE.md').read_text('utf-8')
        wanted = {room: imports - {room} for room, imports in ROOMS.items()}
        self.assertEqual(rooms_of_page(page), wanted)

    def test_the_key_files_are_there(self) -> None:
        page = (TOOLS.parent / 'docs' / 'internals' / 'ARCHITECTURE.md').read_text('utf-8')
        table = page.split('\n## Key files\n', 1)[1].split('\n## ', 1)[0]
        files = re.findall(r'^\| `([^`]+)` \| \S', table, re.M)
        self.assertEqual(len(files), 12)
        for name in files:
            self.assertTrue((TOOLS.parent / name).is_file(), name)

    def imports(self) -> Dict[str, Set[str]]:
        known = modules()
        return {name: set(imports_of(name, path, set(known))) for name, path in known.items()}

    def test_a_room_imports_only_what_it_may(self) -> None:
        for name, imported in self.imports().items():
            room = room_of(name)
            for other in map(room_of, imported):
                allowed = other in ('', room) or other in ROOMS.get(room, set())
                self.assertTrue(allowed, f'{name} of {room} imports from {other}')

    def test_each_class_has_a_name_of_its_own(self) -> None:
        named: Dict[str, List[str]] = {}
        # Users know the classes of the interface by the name of the package.
        inner = {name: path for name, path in modules().items() if room_of(name) != 'api'}
        for name, path in inner.items():
            for node in ast.walk(ast.parse(path.read_text('utf-8'))):
                if isinstance(node, ast.ClassDef):
                    named.setdefault(node.name, []).append(name)
        self.assertEqual({name: where for name, where in named.items() if len(where) > 1}, {})

    def test_no_import_goes_in_a_circle(self) -> None:
        self.assertEqual(circle(self.imports()), [])

    def test_a_circle_is_found(self) -> None:
        found = circle({'a': {'b'}, 'b': {'c'}, 'c': {'b'}})
        self.assertEqual((found[0], set(found)), (found[-1], {'b', 'c'}))

    def test_imports_are_seen_in_all_their_forms(self) -> None:
        name = f'{PACKAGE}.checker.main'
        found = set(imports_of(name, modules()[name], set(modules())))
        self.assertIn(f'{PACKAGE}.checker.options', found)
        self.assertIn(f'{PACKAGE}.common.command', found)
        self.assertIn(f'{PACKAGE}.checker.merging', found)


if __name__ == '__main__':
    unittest.main()
