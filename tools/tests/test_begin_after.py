"""The acknowledged line after which a trace begins, by --begin-after."""

import unittest
from typing import List

from crashfs_tools.common.trace import Creat, Header, Say
from crashfs_tools.recorder.begin_after import LateStart
from crashfs_tools.recorder.output_streams import OUTPUT
from crashfs_tools.recorder.recording import Recording, TraceSettings

LINES = ['down', 'up 1', 'Up 2', 'up 3', '3']


def paths_at_start(number_or_pattern: str) -> List[str]:
    """The paths of a trace's start tree, if a file is made before each of LINES, with the number of
    that line as its name."""
    recording = Recording(Header('u', 'u', 0o755), TraceSettings())
    late_start = LateStart(recording, number_or_pattern)
    recording.on_acknowledged = late_start.count_line
    (stream,) = [one for one in recording.streams.all_streams() if one.name == OUTPUT]
    for number, line in enumerate(LINES, 1):
        recording.add_operation(Creat(f'/{number}', 'u', 'u', 0o644))
        recording.add_output(stream, f'{line}\n'.encode())
    paths = [line.path for line in recording.trace.start]
    assert recording.has_late_start == bool(paths)
    operations = recording.trace.operations
    assert len(operations) == 2 * (len(LINES) - len(paths))
    assert not operations or isinstance(operations[-1], Say)
    return paths


class BeginAfter(unittest.TestCase):
    def test_the_first_line_that_is_wanted_begins_the_trace_and_no_later_one_does(self) -> None:
        for wanted, count in (
            ('1', 1),
            ('3', 3),
            ('03', 3),
            ('5', 5),
            ('up*', 2),
            ('Up*', 3),
            ('*3', 4),
            ('[3]', 5),
            ('*', 1),
            ('up', 0),
            ('6', 0),
            ('0', 0),
        ):
            with self.subTest(wanted):
                self.assertEqual(
                    paths_at_start(wanted), [f'/{number}' for number in range(1, count + 1)]
                )


if __name__ == '__main__':
    unittest.main()
