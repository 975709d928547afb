"""What a campaign keeps in its book, takes from reports, and cuts of sessions: no command runs."""

import json
import unittest
from argparse import ArgumentTypeError
from pathlib import Path
from unittest import mock

from crashfs_tools.campaign.book import (
    WHOLE_SESSION,
    Book,
    KnownFailure,
    failure_key,
    read_book,
)
from crashfs_tools.campaign.options import parse_time_limit
from crashfs_tools.campaign.sessions import Failure, SessionVerdict, read_report, verdict_of
from crashfs_tools.campaign.shrinking import Shrinking, acknowledged_places, lines_of_trace
from crashfs_tools.common.command import Refused
from crashfs_tools.common.trace import Header, Say, Trace

from .support import InFolder


class Keys(unittest.TestCase):
    def test_a_failure_is_the_same_whatever_its_lines_and_texts_are(self):
        one = Failure('lost: a=1', ['line 7 (rename /a1 to /b) was not .. line 9 "a=1"'], 3, 1)
        other = Failure('lost: a=2', ['line 17 (rename /a2 to /b) was not .. line 19 "q"'], 8, 2)
        self.assertEqual(failure_key(one), failure_key(other))
        for text in ('line 7 (unlink /a1) was not .. line 9 "a=1"', one.text[0] + ' at all'):
            self.assertNotEqual(failure_key(one), failure_key(Failure('lost: a=1', [text], 3, 1)))
        self.assertNotEqual(failure_key(one), failure_key(Failure('corrupt: a=1', one.text, 3, 1)))

    def test_only_acknowledged_lines_are_counted(self):
        lines = ['{"op":"say","text":"x"}', '{"op":"note","text":"\\"say\\""}', '{"op":"sync"}']
        self.assertEqual(acknowledged_places([*lines, lines[0]]), [0, 3])


class Books(InFolder):
    def test_a_file_that_is_no_book_is_refused(self):
        path = Path(self.path('campaign.json'))
        book = Book(path, ['a'], 4, 3, {'k': KnownFailure(Failure('c', ['t'], 1, 1), 2, 1)})
        book.save()
        self.assertEqual(read_book(path, ['a'], 1), book)
        fields = json.loads(path.read_text('utf-8'))
        changes = [
            {'entries': value} for value in (None, 5, [None], [5], ['k'], [[]], [{}], {'k': 1})
        ]
        changes += [{'entries': [{**fields['entries'][0], 'failure': value}]} for value in (5, {})]
        changes += [{'faults': value} for value in (5, [5], [[1]])] + [{'next_seed': 'x'}]
        texts = [json.dumps({**fields, **change}) for change in changes]
        for text in [*texts, '', '[]', 'null', '5', '{', '[' * 100_000]:
            path.write_text(text, 'utf-8')
            with self.subTest(text=text[:80]), self.assertRaisesRegex(
                Refused, 'no file of crashfs'
            ):
                read_book(path, ['a'], 1)


class Cuts(InFolder):
    def test_only_a_line_feed_ends_a_line_of_the_session(self):
        texts = [f'a{letter}b' for letter in '\x0b\x0c\x1c\x1d\x1e\x85\u2028\u2029\r']
        trace = Trace(Header('u', 'u', 0o755), operations=[Say(text) for text in texts])
        lines = list(trace.lines())
        self.assertTrue(any('\u2028' in line for line in lines))
        self.write('session.trace', ''.join(f'{line}\n' for line in lines))
        sessions = mock.Mock(trace=Path(self.path('session.trace')), folder=Path(self.folder))
        sessions.check.return_value = SessionVerdict()
        shrinking = Shrinking(sessions, 'none', lines_of_trace(sessions.trace))
        self.assertEqual(shrinking.say_places, list(range(1, len(lines))))
        for count in range(1, len(lines)):
            shrinking.find_failure(count)
            self.assertEqual(self.read('cut.trace').split('\n'), [*lines[: count + 1], ''])
        shrinking.find_failure(WHOLE_SESSION)
        self.assertEqual(self.read('cut.trace'), self.read('session.trace'))

    def test_the_page_of_a_kept_part_is_of_the_check_that_finds_its_failure(self):
        self.write('session.trace', '{"op":"say","text":"x"}\n{"op":"sync"}\n')
        sessions = mock.Mock(trace=Path(self.path('session.trace')), folder=Path(self.folder))
        found = Failure('lost: a', [], 3, 1)
        sessions.check.return_value = SessionVerdict([found])
        kept, page = Path(self.path('kept.trace')), Path(self.path('kept.html'))
        shrinking = Shrinking(sessions, 'lost', lines_of_trace(sessions.trace))
        self.assertEqual(shrinking.write_part(1, kept, page), found)
        self.assertEqual(kept.read_text('utf-8'), '{"op":"say","text":"x"}\n')
        cut = Path(self.path('cut.trace'))
        self.assertEqual(sessions.check.call_args_list, [mock.call(cut, page)])

    def test_the_shortest_part_has_the_fewest_lines_with_which_it_fails_if_any_has(self):
        self.write('session.trace', '{"op":"say","text":"x"}\n' * 9 + '{"op":"sync"}\n')
        sessions = mock.Mock(trace=Path(self.path('session.trace')), folder=Path(self.folder))
        found = SessionVerdict([Failure('lost: a', [], 3, 1)])
        for needed in (1, 4, 9, 10):
            sessions.check.side_effect = lambda cut, page: (
                found if cut.read_text('utf-8').count('\n') >= needed else SessionVerdict()
            )
            shrinking = Shrinking(sessions, 'lost', lines_of_trace(sessions.trace))
            for most in (None, 0, 3, 4, 8, 20):
                with self.subTest(needed=needed, most=most):
                    limit = 9 if most is None else min(most, 9)
                    length = shrinking.shortest_length(most)
                    self.assertEqual(length, needed if needed <= limit else None)

    def test_a_session_is_shorter_with_fewer_lines_or_as_many_as_a_whole_one_has(self):
        for shortest, most in ((WHOLE_SESSION, 4), (4, 3), (1, 0)):
            known = KnownFailure(Failure('lost: a', [], 3, 1), 1, 1, says=4, shortest=shortest)
            self.assertEqual(known.most_lines, most)


class TimeLimits(unittest.TestCase):
    def test_a_time_limit_is_above_0_or_endless(self):
        self.assertEqual([parse_time_limit(text) for text in ('1.5', 'inf')], [1.5, float('inf')])
        for text in ('0', '-1', 'nan', 'x', ''):
            with self.assertRaisesRegex(ArgumentTypeError, f'^{text} is no number of seconds'):
                parse_time_limit(text)


# An entry of a report.
ENTRY = {'cause': 'lost: a', 'text': [], 'example': 3, 'different': 1}


class Reports(InFolder):
    """What counts of a check's report."""

    def checked(self, status, *groups, outcomes=()):
        """What a check finds that ends with a status, and whose report has these entries, and these
        outcomes of states."""
        windows = [{'outcomes': {str(state): one for state, one in enumerate(outcomes)}}]
        return verdict_of(status, 'it ended\n', {'windows': windows, 'groups': groups})

    def test_a_report_of_an_unknown_version_is_not_read(self):
        path = Path(self.path('report.json'))
        for version in (3, 4):
            path.write_text(json.dumps({'crashfs-check': version}), 'utf-8')
            self.assertEqual(read_report(path), {'crashfs-check': version})
        for fields in ({'crashfs-check': 2}, {'crashfs-check': 5}, {}):
            path.write_text(json.dumps(fields), 'utf-8')
            with self.subTest(fields=fields), self.assertRaisesRegex(OSError, 'another version'):
                read_report(path)

    def test_a_check_without_a_verdict_has_its_last_line_as_the_reason(self):
        for printed, reason in (('a\nb: c\n \n', 'b: c'), (' \n', 'it printed nothing')):
            verdict = verdict_of(2, printed, {'windows': [], 'groups': []})
            self.assertEqual(verdict, SessionVerdict([], f'crashfs-check: status 2: {reason}'))

    def test_accepted_failures_are_none(self):
        known = {**ENTRY, 'accepted': {'cause': 'lost: a'}}
        other = {**ENTRY, 'cause': 'lost: b', 'accepted': None}
        self.assertEqual(self.checked(0, known), SessionVerdict())
        self.assertEqual(
            self.checked(1, known, other), SessionVerdict([Failure('lost: b', [], 3, 1)])
        )

    def test_states_without_an_answer_are_no_failures(self):
        slow = {**ENTRY, 'cause': 'it is slow'}
        outcomes = [['bad', 'lost: a', ''], ['no answer', 'it is slow', ''], ['good', '', '']]
        fault = 'crashfs-check: status 3: no answer: it is slow'
        found = [Failure('lost: a', [], 3, 1)]
        self.assertEqual(self.checked(3, slow, outcomes=outcomes[1:]), SessionVerdict([], fault))
        self.assertEqual(
            self.checked(3, ENTRY, slow, outcomes=outcomes), SessionVerdict(found, fault)
        )
        both = [*outcomes, ['no answer', 'lost: a', '']]
        self.assertEqual(self.checked(3, ENTRY, slow, outcomes=both), SessionVerdict(found, fault))

    def test_a_failure_that_is_no_entry_leaves_the_session_without_a_verdict(self):
        self.assertEqual(self.checked(0), SessionVerdict())
        fault = 'crashfs-check: status 1: a failure has no entry in its report, as one of --nested'
        self.assertEqual(self.checked(1), SessionVerdict([], fault))
        self.assertEqual(self.checked(3), SessionVerdict([], 'crashfs-check: status 3: it ended'))


if __name__ == '__main__':
    unittest.main()
