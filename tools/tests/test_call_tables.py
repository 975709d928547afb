"""The tables of system calls: each call of one is traced, and those that change something are in
the tables of changes."""

import unittest
from typing import Any, Collection, Dict, Set

from crashfs_tools.recorder import (
    call_order,
    log_filter,
    mapped_files,
    output_streams,
    strace_log,
    strace_run,
)
from crashfs_tools.recorder.calls import data, modes, names, opens, renames
from crashfs_tools.recorder.translate import HANDLERS, SOCKET_HANDLERS

TABLES: Dict[str, Collection[str]] = {
    'CHANGES': call_order.CHANGES,
    'OPENS': call_order.OPENS,
    'CLOSES': call_order.CLOSES,
    'SYNCS': call_order.SYNCS,
    'TARGET_INDEXES': call_order.TARGET_INDEXES,
    'DESCRIPTOR_CALLS': log_filter.DESCRIPTOR_CALLS,
    'MEMORY_CALLS': log_filter.MEMORY_CALLS,
    'DESCRIPTOR_MAKERS': log_filter.DESCRIPTOR_MAKERS,
    'WRITES': log_filter.WRITES,
    'STOPPING_CALLS': mapped_files.STOPPING_CALLS,
    'RESTARTED_CALLS': mapped_files.RESTARTED_CALLS,
    'ACCEPTS': output_streams.ACCEPTS,
    'SENDS': output_streams.SENDS,
    'FORKS': strace_log.FORKS,
}
# Handlers of calls that change no bytes; the bytes that others change aren't in the log.
NO_WRITERS = (
    *(data.on_read, data.on_preadv2, data.on_lseek, data.on_llseek),
    *(data.on_ioctl, data.on_io_uring),
)


def calls_of(handlers: Dict[str, Any], *wanted: Any) -> Set[str]:
    """The names of the calls that have one of the wanted handlers."""
    return {name for name, handler in handlers.items() if handler in wanted}


class Tables(unittest.TestCase):
    def test_each_call_of_a_table_is_traced(self) -> None:
        traced = {*HANDLERS, *SOCKET_HANDLERS}
        for name, table in TABLES.items():
            with self.subTest(name):
                self.assertLessEqual(set(table), traced)

    def test_each_call_that_restarts_is_stopped_at_every_second_start_and_others_at_each(self):
        always, alternately = strace_run.stop_options()[1::2]
        for option, calls in (
            (always, set(mapped_files.STOPPING_CALLS) - set(mapped_files.RESTARTED_CALLS)),
            (alternately, set(mapped_files.RESTARTED_CALLS)),
        ):
            names = option.partition('=')[2].partition(':')[0].replace('?', '').split(',')
            self.assertEqual(sorted(names), sorted(calls))
        self.assertLess(set(mapped_files.RESTARTED_CALLS), set(mapped_files.STOPPING_CALLS))
        self.assertEqual(
            [option.partition(':')[2] for option in (always, alternately)],
            ['signal=SIGSTOP', 'signal=SIGSTOP:when=1+2'],
        )

    def test_calls_that_write_are_changes_of_data(self) -> None:
        by_path = calls_of(data.HANDLERS, data.on_truncate)
        writers = set(data.HANDLERS) - calls_of(data.HANDLERS, *NO_WRITERS) - by_path
        sends = calls_of(data.SOCKET_HANDLERS, data.on_send)
        self.assertEqual(call_order.DATA_CHANGES, writers | sends)

    def test_calls_that_change_names_modes_and_owners_are_changes(self) -> None:
        # A socket isn't followed, and the trace has no attributes.
        left_out = {'bind', *(f'{kind}removexattr' for kind in ('', 'l', 'f'))}
        changing = {*names.HANDLERS, *renames.HANDLERS, *modes.HANDLERS} - left_out
        self.assertLessEqual(changing, call_order.CHANGES)

    def test_opens_and_closes_are_those_of_the_handlers(self) -> None:
        openers = (opens.on_open, opens.on_openat, opens.on_openat2, opens.on_creat)
        self.assertEqual(call_order.OPENS, calls_of(opens.HANDLERS, *openers))
        closers = (opens.on_close, opens.on_close_range)
        self.assertEqual(call_order.CLOSES, calls_of(opens.HANDLERS, *closers))


if __name__ == '__main__':
    unittest.main()
