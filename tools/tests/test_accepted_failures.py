"""Known failures: which entries they are, what they change, and what is said of those not found."""

from __future__ import annotations

import datetime
import json
import unittest
from typing import Any, Dict, List
from xml.etree import ElementTree

from crashfs_tools.checker.findings.accepted_failures import (
    AcceptedFailure,
    AcceptedFailures,
    operation_text,
)
from crashfs_tools.common.command import Refused
from crashfs_tools.common.trace_lines import TraceLine

from .support import EXAMPLES, InFolder

CONFIG = EXAMPLES / 'config'
LOST = {
    'cause': 'lost: a version that was saved is not there',
    'lost': 'rename /config.new to /config',
    'kept': 'say',
    'why': 'issue 7',
}
OTHER = {'cause': 'corrupt: something else', 'lost': 'write /log', 'kept': 'say', 'why': 'old'}
TODAY = datetime.date(2026, 11, 29)


class Files(InFolder):
    def read_failures(self, text: str) -> AcceptedFailures:
        return AcceptedFailures.read(self.write('known.json', text))

    def test_a_file_that_says_too_little_or_something_else_is_refused(self) -> None:
        for text, fault in (
            ('[', 'no JSON'),
            ('[' * 200_000, 'no JSON'),
            ('{}', 'no list of entries'),
            ('[1]', 'entry 1 is no object of texts'),
            ('[{"cause": "a", "why": 1}]', 'entry 1 is no object of texts'),
            ('[{"cause": "a", "why": "b"}, {"cause": "a"}]', 'entry 2 does not say its why'),
            ('[{"why": "b"}]', 'entry 1 does not say its cause'),
            ('[{"cause": "a", "why": "b", "untill": "x"}]', 'unknown key: untill'),
            ('[{"cause": "a", "why": "b", "until": "soon"}]', 'until is no date'),
            ('[{"cause": "a", "why": "b", "until": "20270131"}]', 'until is no date'),
            ('[{"cause": "a", "why": "b", "until": "2027-W04-7"}]', 'until is no date'),
        ):
            with self.assertRaisesRegex(Refused, fault):
                self.read_failures(text)
        with self.assertRaisesRegex(Refused, 'No such file'):
            AcceptedFailures.read(self.path('nowhere'))

    def test_numbers_and_random_parts_do_not_count_and_all_else_does(self) -> None:
        entry = AcceptedFailure('lost: row 3', 'unlink /log.17', 'say', 'why')
        found = AcceptedFailures([entry], TODAY)
        like = entry._replace(cause='lost: row 4', lost='unlink /log.8')
        self.assertEqual(found.acceptance_of(like), (entry, False))
        for change in ({'cause': 'lost: table 3'}, {'lost': 'creat /log.17'}, {'kept': ''}):
            self.assertIsNone(found.acceptance_of(entry._replace(**change)), change)

    def test_an_entry_is_read_as_json_has_it(self) -> None:
        for fields in (
            {**LOST, 'until': '2027-01-31'},
            {'cause': 'a', 'lost': '', 'kept': '', 'why': 'b', 'until': ''},
        ):
            failures = self.read_failures(json.dumps([fields]))
            (entry,) = failures.entries_without([])
            self.assertEqual(entry.fields, fields)
            self.assertEqual(failures.entries_without([entry._replace(why='other')]), [])

    def test_the_name_of_an_entry_has_the_operations_that_it_has(self) -> None:
        for lost, kept, name in (
            ('unlink /a', 'say', 'lost: a (unlink /a, then say)'),
            ('', 'say', 'lost: a (say)'),
            ('', '', 'lost: a'),
        ):
            self.assertEqual(AcceptedFailure('lost: a', lost, kept, 'why').name, name)

    def test_an_operation_has_the_paths_of_its_line(self) -> None:
        for line, text in (
            (TraceLine(3, 'rename', '/a', '/b'), 'rename /a to /b'),
            (TraceLine(3, 'write', '/a', '', '3 bytes at 0'), 'write /a'),
            (TraceLine(3, 'say', details='row 1'), 'say'),
            (None, ''),
        ):
            self.assertEqual(operation_text(line), text)

    def test_an_entry_counts_through_its_last_day(self) -> None:
        for until, is_over in ((None, False), ('2026-11-29', False), ('2026-11-28', True)):
            date = datetime.date.fromisoformat(until) if until else None
            entry = AcceptedFailure('a', '', '', 'b', date)
            found = AcceptedFailures([entry], TODAY).acceptance_of(entry)
            self.assertEqual(found, (entry, is_over), until)


class Reports(InFolder):
    def check(self, entries: List[Dict[str, Any]], *words: str) -> Any:
        path = self.write('known.json', json.dumps(entries))
        trace, command = str(CONFIG / 'config.trace'), str(CONFIG / 'check.sh')
        return self.run_tool('crashfs-check', '--accept', path, *words, trace, '--', command)

    def test_an_accepted_entry_does_not_change_the_status_and_is_reported(self) -> None:
        outputs = '--json', 'r.json', '--junit', 'r.xml', '--html', 'r.html'
        ran = self.check([{**LOST, 'until': '2999-01-31'}, OTHER], *outputs)
        self.assertEqual(ran.returncode, 0, ran.stdout)
        self.assertIn('all 28 crash states (58 sets): 12 fail, accepted\n', ran.stdout)
        self.assertEqual(
            ran.stdout.splitlines()[-3:],
            [
                '  accepted: lost: a version that was saved is not th.. 12 states, e.g. --state 20',
                '    until 2999-01-31: issue 7',
                '  accepted, and gone: corrupt: something else (write /log, then say)',
            ],
        )
        fields = json.loads(self.read('r.json'))
        (group,) = fields['groups']
        self.assertEqual(group['accepted']['why'], 'issue 7')
        accept = {key: LOST[key] for key in ('cause', 'lost', 'kept')}
        self.assertEqual({key: group['accept'][key] for key in accept}, accept)
        self.assertEqual(fields['accepted_missing'], [{**OTHER, 'until': ''}])
        suite = ElementTree.parse(self.path('r.xml')).getroot()
        self.assertEqual((suite.get('failures'), suite.get('skipped')), ('0', '1'))
        self.assertEqual(len(list(suite.iter('skipped'))), 1)
        page = self.read('r.html')
        self.assertIn('<section class="accepted">', page)
        self.assertIn('accepted, and gone: corrupt: something else', page)

    def test_others_count_and_so_does_one_whose_day_has_passed(self) -> None:
        ran = self.check([OTHER])
        self.assertEqual(ran.returncode, 1)
        self.assertIn('12 fail: 12 lost\n', ran.stdout)
        ran = self.check([{**LOST, 'until': '2020-01-31'}])
        self.assertEqual(ran.returncode, 1)
        self.assertIn('accepted until 2020-01-31: issue 7 (this day has passed)', ran.stdout)
        self.assertNotIn('and gone', ran.stdout)

    def test_what_was_not_tried_may_still_be_there(self) -> None:
        ran = self.check([OTHER], '--prefixes')
        self.assertIn('accepted, and not seen: corrupt', ran.stdout)

    def test_an_accepted_entry_is_not_counted_with_the_others(self) -> None:
        recover = self.write('two.sh', TWO_CAUSES, 0o755)
        words = str(CONFIG / 'config.trace'), '--', recover
        before = self.run_tool('crashfs-check', '--json', 'r.json', *words)
        self.assertIn('12 fail: 6 first, 6 second', before.stdout)
        groups = json.loads(self.read('r.json'))['groups']
        known = [
            {**group['accept'], 'why': 'a reason'}
            for group in groups
            if group['cause'].startswith('second')
        ]
        path = self.write('known.json', json.dumps(known))
        ran = self.run_tool('crashfs-check', '--accept', path, *words)
        self.assertEqual(ran.returncode, 1)
        self.assertIn(': 6 fail: 6 first; 6 more fail, accepted\n', ran.stdout)

    def test_a_state_of_several_accepted_entries_counts_once(self) -> None:
        """State 1 is of one entry. The other states are of three entries, and some of two."""
        known = [
            {'cause': 'lost a', 'lost': lost, 'kept': kept, 'why': 'a reason'}
            for lost, kept in [
                ('rename /config.new to /config', 'say'),
                ('rename /config.new to /config', 'write /config.new'),
                ('creat /config.new', 'say'),
            ]
        ]
        path = self.write('known.json', json.dumps(known))
        recover = self.write('some.sh', SOME_STATES, 0o755)
        trace = str(CONFIG / 'config.trace')
        words = '--accept', path, '--tap', 'r.tap', trace, '--', recover
        ran = self.run_tool('crashfs-check', '--unproved', *words)
        self.assertIn(' (58 sets): 1 fails: 1 lost a; 6 more fail, accepted\n', ran.stdout)
        self.assertEqual(ran.returncode, 1)
        self.assertEqual(self.read('r.tap').count('\nnot ok '), 1)

    def test_an_entry_of_a_later_window_counts_though_its_states_were_tried_before(self) -> None:
        """States 15, 17 and 20 are equal to state 4 of the window before, and have another pair."""
        entry = {'cause': 'lost a', 'lost': 'mkdir /tmp', 'kept': 'say', 'why': 'a reason'}
        path = self.write('known.json', json.dumps([entry]))
        script = 'case $CRASHFS_STATE in 4|15|17|20) echo lost a; exit 1; esac'
        words = str(EXAMPLES / 'store.trace'), '--', 'sh', '-c', script
        options = '--unproved', '--window', '6', '--accept', path, '--tap', 'r.tap'
        ran = self.run_tool('crashfs-check', *options, *words)
        self.assertEqual(ran.returncode, 1, ran.stdout)
        self.assertIn('accepted: lost a ', ran.stdout)
        self.assertEqual(self.read('r.tap').count('\nnot ok '), 1)

    def test_a_merged_report_has_them(self) -> None:
        trace, command = str(CONFIG / 'config.trace'), str(CONFIG / 'check.sh')
        for part in ('1', '2'):
            words = '--shard', f'{part}/2', '--json', f'{part}.json', trace, '--', command
            self.run_tool('crashfs-check', *words)
        path = self.write('known.json', json.dumps([LOST]))
        ran = self.run_tool('crashfs-check', '--accept', path, '--merge', '1.json', '2.json')
        self.assertEqual(ran.returncode, 0, ran.stdout)
        ran = self.run_tool(
            'crashfs-check', '--accept', path, '--shard', '1/2', trace, '--', command
        )
        self.assertEqual(ran.returncode, 2)
        self.assertIn('--accept goes with no --fail-fast or --shard', ran.stderr)


# As examples/config/check.sh, with another cause for the second version.
TWO_CAUSES = """\
#!/bin/sh
version=$(sed -n 's/^version=//p' config 2>/dev/null)
test "${version:-0}" -ge "$CRASHFS_SAYS" && exit 0
test "$CRASHFS_SAYS" = 3 && echo 'second: it is lost' || echo 'first: it is lost'
exit 1
"""

# Fails in one state that loses nothing, and in six others.
SOME_STATES = """\
#!/bin/sh
case $CRASHFS_STATE in 20|28|44|47|48|13|1) echo 'lost a'; exit 1;; esac
"""


if __name__ == '__main__':
    unittest.main()
