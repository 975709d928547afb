"""The two examples: what they record, and their reports."""

import os
import re
import shutil
import unittest

from crashfs_tools.common.trace import WRITTEN_VERSION
from crashfs_tools.common.trace_read import read_trace

from .support import EXAMPLES, FAKE, InFolder, needs_sqlite, needs_strace

OWNERS, NOBODY = re.compile(r'"(owner|group)":"[^"]*"'), r'"\1":"nobody"'


def example(*names: str) -> str:
    return str(EXAMPLES.joinpath(*names))


class Examples(InFolder):
    def lines(self, path):
        with open(path, encoding='utf-8') as file:
            return file.read().splitlines()

    def check(self, trace, command, *options):
        ran = self.run_tool('crashfs-check', '--crashfs', FAKE, *options, trace, '--', command)
        self.assertEqual(ran.stderr, '')
        return ran.stdout.splitlines()

    def test_the_config_saver_s_report(self):
        report = self.check(example('config', 'config.trace'), example('config', 'check.sh'))
        self.assertEqual(report, self.lines(example('config', 'config.report')))

    @needs_sqlite
    def test_sqlite_s_report_with_full(self):
        report = self.check(example('sqlite', 'full.trace'), example('sqlite', 'recover.sh'))
        self.assertEqual(report, self.lines(example('sqlite', 'full.report')))

    @needs_sqlite
    def test_an_eighth_of_sqlite_s_report_with_extra(self):
        # EXTRA is FULL with a sync of the directory behind each unlink of the journal.
        lines = []
        for line in self.lines(example('sqlite', 'full.trace')):
            lines.append(line)
            if '"unlink"' in line:
                lines.append('{"op":"fsync","path":"/"}')
        trace = self.write('extra.trace', '\n'.join(lines) + '\n')
        (report,) = self.check(trace, example('sqlite', 'recover.sh'), '--shard', '1/8')
        (whole,) = self.lines(example('sqlite', 'extra.report'))
        shard = report.replace('micro-operations, ', 'micro-operations, all ')
        self.assertEqual(re.sub('of the [0-9]+ tried by shard 1/8 ', '', shard), whole)


@needs_strace
class Recorded(InFolder):
    def record(self, *command):
        ran = self.run_tool('crashfs-record', 'store', 'out.trace', '--', *command)
        self.assertEqual(ran.returncode, 0, ran.stderr)
        return self.read('out.trace').splitlines()

    def test_the_config_saver_is_recorded_as_its_trace(self):
        os.umask(0o022)
        os.mkdir(self.path('store'))
        self.write('store/config', 'version=0\n')
        with open(example('config', 'config.trace'), encoding='utf-8') as file:
            wanted = read_trace(OWNERS.sub(NOBODY, file.read()))
        found = read_trace(OWNERS.sub(NOBODY, '\n'.join(self.record(example('config', 'save.py')))))
        self.assertEqual(
            (found.version, found.start, found.operations),
            (WRITTEN_VERSION, wanted.start, wanted.operations),
        )

    @needs_sqlite
    def test_a_session_of_sqlite_has_its_rows_acknowledged_and_its_journals_removed(self):
        os.mkdir(self.path('store'))
        os.system(f'sqlite3 {self.path("store", "test.db")} "CREATE TABLE city (name TEXT)"')
        found = self.record('sqlite3', 'test.db', f'.read {example("sqlite", "session.sql")}')
        self.assertEqual(sum('"say"' in line for line in found), 4)
        self.assertEqual(sum('"unlink","path":"/test.db-journal"' in line for line in found), 4)


@needs_strace
class RareBugs(InFolder):
    """The store of examples/campaign: each of its bugs is found in a session that has its path."""

    BUGS = ('snapshot', 'compact', 'grow')

    def report(self, seed: int, *bugs: str) -> str:
        """The report of the session of a seed, by a store with these bugs only."""
        os.mkdir(self.path('store'))
        mended = ' '.join(bug for bug in self.BUGS if bug not in bugs)
        variables = [
            f'CRASHFS_SEED={seed}',
            f'EXAMPLE_MENDED={mended}',
            'PYTHONDONTWRITEBYTECODE=1',
        ]
        session = ['env', *variables, example('campaign', 'session.py')]
        made = self.run_tool('crashfs-record', 'store', 'out.trace', '--', *session)
        self.assertEqual(made.returncode, 0, made.stderr)
        words = ('--crashfs', FAKE, '--quick', '--jobs', '2', 'out.trace')
        recovery = ('env', 'PYTHONDONTWRITEBYTECODE=1', example('campaign', 'recover.py'))
        return self.run_tool('crashfs-check', *words, '--', *recovery).stdout

    def assert_one_entry(self, report: str, cause: str, *pieces: str) -> None:
        """The report has one entry, with these pieces of text in their order."""
        entries = re.findall('^  (?=[a-z]+:).*', report, re.M)
        self.assertEqual([entry[2 : 2 + len(cause)] for entry in entries], [cause], report)
        self.assertRegex(' '.join(report.split()), '.*'.join(map(re.escape, pieces)))

    def test_a_snapshot_is_lost_without_a_sync_of_the_directory(self) -> None:
        self.assert_one_entry(
            self.report(6, 'snapshot'),
            'lost: a snapshot',
            '(rename /1.open to /1.log) was not durable',
            'acknowledged "snapshot 1": fsync the directory / between them',
        )

    def test_compaction_loses_a_value_if_it_removes_logs_too_early(self) -> None:
        self.assert_one_entry(
            self.report(12, 'compact'),
            'lost: a value',
            '(rename /merged to /3.log) was not durable',
            '(unlink /1.log) was: fsync the directory / between them',
        )

    def test_a_log_is_damaged_whose_header_was_written_before_it_had_its_size(self) -> None:
        self.assert_one_entry(
            self.report(12, 'grow'),
            'corrupt: 2.open has 512 bytes, its header says 1392',
            '(truncate /2.open, 1,392 bytes) was not durable',
            '(write /2.open, 8 bytes at 0) was: fsync /2.open between them',
        )

    def test_without_its_bugs_the_store_is_right(self) -> None:
        for seed in (6, 12):
            self.assertRegex(self.report(seed), 'none fails\n$')
            shutil.rmtree(self.path('store'))


if __name__ == '__main__':
    unittest.main()
