"""The trace of a check: how it is planned, and who may read what shows parts of it."""

import os
import unittest
from unittest import mock

from crashfs_tools.checker.address import Address
from crashfs_tools.checker.checked_trace import (
    CheckedTrace,
    TraceFile,
    mode_of_report,
    refuse_unreadable,
)
from crashfs_tools.checker.merging import strictest_mode
from crashfs_tools.checker.options import Options
from crashfs_tools.checker.states import windows
from crashfs_tools.checker.states.planning import TooLarge
from crashfs_tools.common.command import Refused

from .support import InFolder


def trace_of(**options):
    """A trace whose planner plans it as `plan`, once."""
    planner = mock.Mock(**{'plan.side_effect': ['plan']})
    return CheckedTrace(
        Options('t', **options),
        TraceFile('t', '', 0o600),
        *(mock.Mock(), mock.Mock(), planner, mock.Mock()),
    )


class Plans(unittest.TestCase):
    def test_a_trace_has_one_plan_unless_it_is_too_long_or_a_window_is_asked_for(self):
        trace = trace_of()
        for _ in range(2):
            self.assertEqual((trace.windows, list(trace.all_planned())), (None, ['plan']))
        self.assertIsNone(trace.plan_end())
        too_long, asked_for = trace_of(), trace_of(window=5)
        too_long.planner.plan.side_effect = TooLarge('too long')
        for trace in (too_long, asked_for):
            with mock.patch.object(windows, 'windows_of') as windows_of:
                windows_of.return_value.all_planned.return_value = iter(['one', 'two'])
                self.assertEqual(list(trace.all_planned()), ['one', 'two'])
                self.assertIs(trace.windows, windows_of.return_value)
        asked_for.planner.plan.assert_not_called()

    def test_a_server_and_disks_have_no_windows(self):
        for name, options in (
            ('serve', {'serve': Address('127.0.0.1', 564)}),
            ('disks', {'disks': ['ext4']}),
        ):
            trace = trace_of(**options)
            trace.planner.plan.side_effect = TooLarge('too long')
            with self.subTest(name):
                with self.assertRaisesRegex(Refused, rf'^too long \(--{name} has no windows\)$'):
                    next(trace.all_planned())


class Files(InFolder):
    def test_a_report_may_be_read_by_those_who_may_read_what_it_shows(self):
        for mode, wanted in ((0o777, 0o666), (0o644, 0o644), (0o440, 0o640), (0o000, 0o600)):
            path = self.write('source', '', mode)
            self.assertEqual(mode_of_report(os.stat(path)), wanted)

    def test_a_merged_report_may_be_read_by_those_who_may_read_all_its_files(self):
        modes = {0o644: 'all', 0o640: 'group', 0o604: 'others', 0o600: 'none'}
        paths = {name: self.write(name, '', mode) for mode, name in modes.items()}
        for names, wanted in (
            (['all'], 0o644),
            (['all', 'group'], 0o640),
            (['group', 'others'], 0o600),
            (['none', 'all'], 0o600),
        ):
            self.assertEqual(strictest_mode([paths[name] for name in names]), wanted)

    def test_a_trace_is_a_file_or_a_pipe(self):
        refuse_unreadable(self.write('t.trace', ''))
        os.mkfifo(self.path('pipe'))
        refuse_unreadable(self.path('pipe'))
        with self.assertRaisesRegex(Refused, ' is no file$'):
            refuse_unreadable(self.folder)
        with self.assertRaisesRegex(Refused, ': No such file or directory$'):
            refuse_unreadable(self.path('none'))


if __name__ == '__main__':
    unittest.main()
