"""The pictures of docs/images: they are as they would be drawn now, small and whole."""

from __future__ import annotations

import io
import unittest
from concurrent.futures import ProcessPoolExecutor
from functools import lru_cache
from multiprocessing import get_context
from pathlib import Path
from typing import Dict
from unittest import mock
from xml.dom import minidom

from picturing.checked import check_example
from picturing.command import main
from picturing.pictures import EXAMPLES, TOP, pictures
from picturing.states import RESULTS, rows_of_holes, runs_of
from picturing.svg import COLOURS, WIDTH, Picture

from .support import needs_sqlite

MOST_BYTES = 60_000


@lru_cache(maxsize=1)
def drawn() -> Dict[Path, str]:
    """Draws in a process of its own: a check ends all children of its process."""
    with ProcessPoolExecutor(1, get_context('fork')) as pool:
        return pool.submit(pictures).result()


class Check(unittest.TestCase):
    def test_what_differs_need_not_be_made_from_examples(self) -> None:
        absent = {TOP / 'docs' / 'images' / 'absent.svg': 'text'}
        with mock.patch('picturing.command.pictures', lambda: absent):
            with mock.patch('sys.stdout', io.StringIO()) as out:
                self.assertEqual(main(['--check']), 1)
        self.assertEqual(
            out.getvalue(),
            'docs/images/absent.svg is missing, or not as the examples and tools/picturing make '
            'it: run tools/pictures\n',
        )


@needs_sqlite
class Pictures(unittest.TestCase):
    def test_no_picture_is_older_than_the_examples(self) -> None:
        for path, text in drawn().items():
            name = str(path.relative_to(TOP))
            self.assertEqual(path.read_text('utf-8'), text, f'{name}: run tools/pictures')

    def test_they_are_small_and_whole(self) -> None:
        for text in drawn().values():
            self.assertLess(len(text.encode()), MOST_BYTES)
            root = minidom.parseString(text).documentElement
            self.assertEqual(root.getAttribute('viewBox').split()[2], str(WIDTH))
            for name in ('title', 'desc'):
                self.assertEqual(len(root.getElementsByTagName(name)), 1)

    def test_no_text_is_wider_than_the_picture(self) -> None:
        # A letter is at most 8 units wide in these sizes, and 6.6 in the mean.
        for text in drawn().values():
            for one in minidom.parseString(text).getElementsByTagName('text'):
                is_code = 'code' in one.getAttribute('class')
                width = len(one.firstChild.data) * (7.9 if is_code else 6.9)
                place = float(one.getAttribute('x'))
                classes = one.getAttribute('class').split()
                room = place if 'end' in classes else WIDTH - place
                if 'middle' in classes:
                    room, width = min(place, WIDTH - place), width / 2
                self.assertLessEqual(width, room, one.toxml())

    def test_each_state_has_a_dash_of_its_colour(self) -> None:
        text = next(text for path, text in drawn().items() if path.name == 'sqlite-full.svg')
        lengths = {'good': 0, 'bad': 0}
        for one in minidom.parseString(text).getElementsByTagName('path'):
            steps = one.getAttribute('d').split('h')[1:]
            cells = sum((int(step.partition('M')[0]) + 1) // 5 for step in steps)
            lengths[one.getAttribute('class').split()[1]] += cells
        self.assertEqual(lengths, {'good': 835 - 52, 'bad': 52})

    def test_each_set_of_the_session_is_a_column(self) -> None:
        text = next(text for path, text in drawn().items() if path.name == 'model.svg')
        cells = [
            one.getAttribute('class')
            for one in minidom.parseString(text).getElementsByTagName('rect')
            if one.getAttribute('class') in ('good', 'bad', 'none')
        ]
        # 14 micro-operations and 30 sets; two of 12 members fail.
        self.assertEqual(len(cells), 14 * 30)
        self.assertEqual(cells.count('bad'), 12 + 13)

    def test_nothing_leads_from_the_last_row_to_the_rename(self) -> None:
        text = next(text for path, text in drawn().items() if path.name == 'needs.svg')
        self.assertIn('13 needs 11 (P5) and 12 (P5)', text)
        self.assertIn('missing: nothing makes 13 need 10', text)

    def test_the_second_window_begins_at_what_no_sync_made_durable(self) -> None:
        text = next(text for path, text in drawn().items() if path.name == 'windows.svg')
        self.assertIn('window 1 has 0 to 22; window 2 has 16 to 39;', text)
        self.assertIn('Number 16 is never synced', text)


class Parts(unittest.TestCase):
    def test_an_example_of_which_no_state_fails_has_no_picture(self) -> None:
        with ProcessPoolExecutor(1, get_context('fork')) as pool:
            checking = pool.submit(check_example, str(EXAMPLES / 'store.trace'), ['/bin/true'])
            with self.assertRaisesRegex(ValueError, 'no state of .*store.trace fails'):
                checking.result()

    def test_a_row_has_the_holes_of_one_micro_operation(self) -> None:
        drawing = {'prefixes': 'ggb', 'holes': ['', ' ', 'gb'], 'numbers': [], 'picks': []}
        self.assertEqual(rows_of_holes(drawing), ['ggb', '  g', '  b'])

    def test_equal_signs_side_by_side_are_one_run(self) -> None:
        self.assertEqual(runs_of('ggbg', 'g'), [range(0, 2), range(3, 4)])
        self.assertEqual(runs_of('ggbg', 'n'), [])

    def test_each_colour_has_a_light_and_a_dark_value(self) -> None:
        text = Picture('t', 'a < b').svg_file()
        light, dark = text.split('prefers-color-scheme: dark')
        for name, (in_light, in_dark) in COLOURS.items():
            self.assertIn(f'--{name}: {in_light};', light)
            self.assertIn(f'--{name}: {in_dark};', dark)
        self.assertIn('a &lt; b', text)
        self.assertLessEqual({colour for colour, _ in RESULTS.values()}, set(COLOURS))


if __name__ == '__main__':
    unittest.main()
