"""Which part of a torn line a crash kept."""

import unittest

from crashfs_tools.checker.findings.advice import FailingCounts, torn_advice
from crashfs_tools.checker.findings.torn import kept_part_text
from crashfs_tools.checker.report.text import ReportText
from crashfs_tools.checker.states.read_plan import read_plan
from crashfs_tools.common.trace_lines import TraceLine

from .test_groups import THIRD, line, plan_text, rename, report_of, write


class KeptPart(unittest.TestCase):
    def plan(self, *writes, version=3):
        header = THIRD.replace('"trace":3', f'"trace":{version}')
        text = header + line('creat', '/f') + ''.join(writes)
        return read_plan(plan_text(text, picks=False))

    def test_a_file_that_grows_has_its_length_or_some_of_its_bytes(self):
        plan = self.plan(write('/f', 'x' * 13000))
        for places, wanted in [
            ([0, 1], 'its length, not its bytes (zeros)'),
            ([0, 1, 2], 'bytes 0 to 4,095 of its 13,000, not bytes 4,096 to 12,999 (zeros)'),
            (
                [0, 1, 2, 4],
                'bytes 0 to 4,095, 8,192 to 12,287 of its 13,000, not bytes 4,096 to 8,191, '
                '12,288 to 12,999 (zeros)',
            ),
            ([0, 2, 3, 4, 5], 'its bytes, not its length'),
        ]:
            kept = sum(1 << place for place in places)
            self.assertEqual(kept_part_text(plan, kept, 3), wanted)

    def test_a_file_that_is_overwritten_keeps_old_bytes(self):
        plan = self.plan(write('/f', 'x' * 8192), write('/f', 'y' * 4096, 2048))
        self.assertEqual(
            kept_part_text(plan, 0b011111, 4),
            'bytes 0 to 2,047 of its 4,096, not bytes 2,048 to 4,095',
        )

    def test_of_many_separate_parts_the_first_three_are_named(self):
        for block_count, more in [(6, ''), (8, ' and 1 more part'), (10, ' and 2 more parts')]:
            size = block_count * 4096
            plan = self.plan(write('/f', 'x' * size), write('/f', 'y' * size))
            places = [place for place, one in enumerate(plan.operations) if one.line == 4]
            kept = sum(1 << place for place in (*range(places[0]), *places[::2]))
            bytes_kept = (
                f'bytes 0 to 4,095, 8,192 to 12,287, 16,384 to 20,479{more} of its {size:,}'
            )
            bytes_lost = f'bytes 4,096 to 8,191, 12,288 to 16,383, 20,480 to 24,575{more}'
            self.assertEqual(kept_part_text(plan, kept, 4), f'{bytes_kept}, not {bytes_lost}')

    def test_in_version_4_a_file_may_grow_in_part(self):
        plan = self.plan(write('/f', 'x'), write('/f', 'y' * 9000, 1), version=4)
        for places, wanted in [
            ([3], 'a part of its length, not its bytes or the rest of its length'),
            (
                [3, 5],
                'a part of its length and bytes 0 to 4,094 of its 9,000, not bytes 4,095 to 8,999 '
                'or the rest of its length',
            ),
            ([3, 5, 6, 7], 'a part of its length and its bytes, not the rest of its length'),
            ([5], 'bytes 0 to 4,094 of its 9,000, not bytes 4,095 to 8,999 or its length'),
            ([5, 6, 7], 'its bytes, not its length'),
            ([3, 4], 'its length, not its bytes (zeros)'),
        ]:
            kept = sum(1 << place for place in [0, 1, 2, *places])
            self.assertEqual(kept_part_text(plan, kept, 4), wanted)

    def test_in_version_4_a_truncate_and_a_rename_have_parts(self):
        cut = line('truncate', '/f', length=100)
        plan = self.plan(write('/f', 'x' * 9000), cut, version=4)
        zeros = 'the zeros after its new end'
        self.assertEqual(kept_part_text(plan, 0b0111111, 4), f'{zeros}, not its length')
        self.assertEqual(kept_part_text(plan, 0b1011111, 4), f'its length, not {zeros}')
        plan = self.plan(line('mkdir', '/d'), rename('/f', '/d/f'), version=4)
        self.assertEqual(kept_part_text(plan, 0b0111, 4), 'both names')
        self.assertEqual(
            torn_advice(TraceLine(4, 'rename', '/f', '/d/f'), 'both names').lines(),
            [
                'line 4 (rename /f to /d/f) was torn: a crash kept both names',
                'no sync helps: a rename within one directory is one change',
            ],
        )

    def test_a_torn_record_needs_a_checksum_that_zeros_fail(self):
        (_, remedy) = torn_advice(TraceLine(4, 'write', '/f'), 'its length').lines()
        self.assertEqual(
            remedy,
            'no sync helps: a record that recovery may drop needs a checksum that zeros fail; '
            'for all else, write a new file, sync it, rename it, sync the directory',
        )


class OneOfTwoLines(unittest.TestCase):
    def details(self, text, cause, count):
        """The first entry of a report, of which so many states have the one line and not the other,
        and what it says of these."""
        report = report_of(THIRD + line('creat', '/f') + line('fsync', '/') + text, cause)
        group = report.groups()[0]
        group.explained_states = frozenset(sorted(group.tried_states)[:count])
        self.assertGreater(group.count, count)
        return group, [one for one in ReportText(report).details(group) if 'of these states' in one]

    def test_no_state_of_a_torn_line_lacks_one_of_two_lines(self):
        group, lines = self.details(
            write('/f', 'x' * 9000),
            lambda files, says: 'torn: f' if b'\0' in files.get('/f', b'') else '',
            count=1,
        )
        self.assertTrue(group.is_torn)
        self.assertEqual(lines, [])

    def test_states_that_lack_the_first_line_and_have_the_second_are_counted(self):
        text = write('/f', 'x') + line('creat', '/g') + line('creat', '/h')

        def cause(files, says):
            return 'lost: f' if '/g' in files and files.get('/f') != b'x' else ''

        for count, lack, have in [(0, '', ''), (1, 'lacks', 'has'), (2, 'lack', 'have')]:
            _, lines = self.details(text, cause, count)
            wanted = (
                f'{count} of these states {lack} the first of the two lines and {have} the second'
            )
            self.assertEqual(lines, [wanted] if count else [])

    def test_states_that_fail_without_a_loss_have_the_first_line(self):
        text = line('creat', '/a') + line('creat', '/c') + line('fsync', '/') + line('creat', '/b')
        group, lines = self.details(
            text, lambda files, says: 'half' if '/a' in files and '/b' not in files else '', count=1
        )
        self.assertFalse(group.is_due_to_loss)
        self.assertEqual(
            lines, ['1 of these states has the first of the two lines and lacks the second']
        )


class EarlyLine(unittest.TestCase):
    def test_a_line_that_may_acknowledge_nothing_is_asked_about(self):
        text = THIRD + line('say', text='ready') + line('creat', '/f')
        (group,) = report_of(
            text, lambda files, says: 'half' if says and not files else ''
        ).groups()
        print_it = 'If line 2 acknowledges nothing, print it on standard error'
        for counts, remedy in [
            (None, f'does line 2 acknowledge something that is not stored yet? {print_it}'),
            (
                FailingCounts(3, 2),
                'no sync helps: do line 3 before line 2, with a sync between them '
                f'(tried: then 2 states fail, 3 before). {print_it}',
            ),
        ]:
            group.swap_counts = counts
            self.assertEqual(group.best_no_loss_advice().remedy, remedy)


if __name__ == '__main__':
    unittest.main()
