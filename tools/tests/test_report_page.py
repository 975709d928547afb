"""The report as a page and as JUnit XML."""

import json
import re
import time
import unittest
from copy import copy
from dataclasses import replace
from types import SimpleNamespace
from unittest import mock
from xml.dom import minidom

from crashfs_tools.checker.findings.accepted_failures import Acceptance, AcceptedFailure
from crashfs_tools.checker.findings.groups import Difference
from crashfs_tools.checker.findings.second_crashes import Recovery
from crashfs_tools.checker.findings.sightings import (
    DiskCounts,
    DiskFailure,
    Explanation,
    Reason,
    Sightings,
)
from crashfs_tools.checker.findings.tree_diff import (
    bytes_text,
    compared_states,
    difference_lines,
    find_differences,
    nearest_good_state,
)
from crashfs_tools.checker.report.drawing import drawing_of
from crashfs_tools.checker.report.junit import junit_pieces
from crashfs_tools.checker.report.page import line_row, page_pieces
from crashfs_tools.checker.report.json_report import json_pieces
from crashfs_tools.checker.report.report import CheckReport
from crashfs_tools.checker.report.tap import tap_pieces
from crashfs_tools.checker.report.text import ReportText
from crashfs_tools.checker.running.results import Head
from crashfs_tools.checker.running.runner import BAD, GOOD, NO_ANSWER, Outcome
from crashfs_tools.common.entry import Entry
from crashfs_tools.common.trace_lines import TraceLine

from .test_groups import HEADER, findings_of, line, report_of, reported, write

ODD = '/<b>&\\u0001'
SIZE = 2_000_000


def odd_findings():
    """Of a store with an odd name, of which two of three lines are lost, and one state hangs."""
    text = HEADER + line('creat', ODD) + line('say', text='one </script>')
    text += write(ODD, 'row') + line('say', text='two')
    findings = findings_of(
        text, lambda files, says: '' if len(files) >= min(says, 1) else 'lost: <file>\x01'
    )
    findings.groups[0].outcome = Outcome(BAD, 'lost: <file>\x01', 'first\n<last>\x01\n')
    return findings


def odd_report():
    return reported(odd_findings())


class Pages(unittest.TestCase):
    def data(self, text):
        return json.loads(re.search(r'const windows = (.*);\n', text)[1])

    def test_what_is_shown_is_text(self):
        text = ''.join(page_pieces(odd_report()))
        self.assertEqual((text.count('<script>'), text.count('</script>')), (1, 1))
        self.assertIn('&lt;b&gt;&amp;', text)
        self.assertNotIn('<file>', text)
        self.assertNotRegex(text, r'https?:|src=|href=')

    def test_a_name_does_not_end_the_script(self):
        text = HEADER + line('mkdir', '/<') + line('creat', '/</script>')
        shown = ''.join(page_pieces(report_of(text, lambda files, says: '')))
        self.assertEqual(shown.count('</script>'), 1)

    def test_an_entry_has_its_sentence_its_lines_and_what_was_printed(self):
        text = ''.join(page_pieces(odd_report()))
        section = re.search('<section>.*?</section>', text, re.S)[0]
        self.assertIn('the directory / is never synced: fsync it between them', section)
        self.assertIn('first\n&lt;last&gt;', section)
        self.assertEqual(section.count('class="creat pair"'), 1)
        self.assertEqual(text.count('<section>'), len(odd_report().groups()))

    def test_all_syncs_have_the_class_of_a_sync(self):
        for word, css_class in (('fsync', 'sync'), ('fsync_range', 'sync'), ('write', 'write')):
            row = line_row(TraceLine(7, word, '/f', note='<n>'), 'pair')
            self.assertIn(f'<tr class="{css_class} pair"><td>7</td><td>{word} /f</td>', row)
            self.assertIn('<td>&lt;n&gt;</td>', row)

    def test_accepted_entries_come_last(self):
        report = odd_report()
        (group,) = report.groups()
        accepted_group = copy(group)
        entry = AcceptedFailure('lost', '', '', 'issue 7')
        accepted_group.acceptance = Acceptance(entry, has_expired=False)
        with mock.patch.object(report, 'groups', lambda: [accepted_group, group]):
            text = ''.join(page_pieces(report))
        classes = re.findall('<section( class="accepted")?>', text)
        self.assertEqual(classes, ['', ' class="accepted"'])

    def test_each_state_is_drawn_with_its_result(self):
        findings = odd_findings()
        hanging = next(iter(findings.plan.states)).number
        findings.outcomes_by_state[hanging] = Outcome(NO_ANSWER)
        del findings.outcomes_by_state[findings.plan.states[1].number]
        (data,) = self.data(''.join(page_pieces(reported(findings))))
        self.assertEqual(data, drawing_of(findings))
        self.assertEqual(data['prefixes'][:2], 'n-')
        signs = data['prefixes'] + ''.join(data['holes'])
        drawn = [one for one in findings.plan.states if one.family != 'pick']
        self.assertEqual(len(signs.replace(' ', '')), len(drawn))
        found = map(findings.outcomes_by_state.get, (one.number for one in drawn))
        failing = sum(one is not None and one.result == BAD for one in found)
        self.assertEqual(signs.count('b'), failing)
        trials = {one.trial for one in drawn}
        others = {one.trial for one in findings.plan.states} - trials
        self.assertEqual(len(data['picks']), len(others))
        self.assertEqual(
            sorted(lacks for *_, lacks in data['picks']), [it[2] for it in data['picks']]
        )
        for row, numbers in zip(data['holes'], data['numbers']):
            self.assertEqual(len(row.replace(' ', '')), len(numbers))

    def test_it_names_the_command_the_version_and_the_date(self):
        report = odd_report()
        report.head.command = ['/bin/check', 'a b', '<i>']
        text = ''.join(page_pieces(report))
        (about,) = re.findall('<p class="about">(.*)</p>', text)
        self.assertIn(
            'COMMAND: /bin/check &#x27;a b&#x27; &#x27;&lt;i&gt;&#x27;; crashfs-check ', about
        )
        self.assertRegex(about, r'\d{4}-\d\d-\d\d \d\d:\d\d:\d\d UTC$')
        self.assertIn('td:first-child { text-align: right; color: #777; white-space: nowrap', text)

    def test_nothing_controls_a_terminal_or_is_no_utf_8(self):
        report = odd_report()
        report.head.trace = '\x1b]0;owned\x07\udcff\u202e'
        group = report.windows[0].groups[0]
        group.outcome = Outcome(BAD, 'lost: \x1b[31m\udcff', '\x1b[31m\n')
        failure = DiskFailure(group.outcome, [0], {}, {}, Explanation(Reason.OUTSIDE))
        report.sightings = Sightings({'ext4': DiskCounts(9, 9, 1)}, {}, [failure])
        shown = {
            'report': '\n'.join(ReportText(report).lines()),
            'page': ''.join(page_pieces(report)),
            'junit': ''.join(junit_pieces(report)),
            'tap': ''.join(tap_pieces(report)),
            'json': ''.join(json_pieces(report)),
        }
        for name, text in shown.items():
            self.assertNotRegex(text, '[\x1b\x07\u202e]' if name != 'json' else '[\x1b\x07]', name)
            text.encode('utf-8')
        self.assertIn('lost: \\x1b[31m\\xff', shown['report'])
        fields = json.loads(shown['json'])
        self.assertEqual(fields['trace'], report.head.trace)
        self.assertEqual(fields['disks']['further'][0]['cause'], group.outcome.cause)

    def test_what_second_crashes_left_is_shown(self):
        text = HEADER + line('creat', '/a')
        report = report_of(text, lambda files, says: '')
        before = ''.join(page_pieces(report))
        self.assertIn(': none fails</p>', before)
        self.assertNotIn('second crash', before)
        group = odd_findings().groups[0]
        places = {group.example.number: 'at line 3 of its recovery (unlink /<)'}
        report.recoveries = [
            Recovery(7, 5, 2, [group], places),
            Recovery(8, fault='its recording took too long'),
        ]
        self.assertEqual(report.status, 1)
        after = ''.join(page_pieces(report))
        (counted,) = re.findall('<p class="summary">(1 recovery.*)</p>', after)
        self.assertEqual(counted, '1 recovery: 5 different states of a second crash, 2 fail')
        (section,) = re.findall('<section><h2>A crash during.*?</section>', after, re.S)
        self.assertIn('lost: &lt;file&gt;', section)
        self.assertIn(f'--state 7/{group.example.number}<', section)
        self.assertIn('state 7, then a crash at line 3 of its recovery (unlink /&lt;)<', section)
        self.assertIn('first\n&lt;last&gt;', section)
        self.assertIn('the recovery of state 8 was not tried: its recording took too', section)

    def test_a_page_of_thousands_of_states_is_small(self):
        text = HEADER + ''.join(line('creat', f'/{number}') for number in range(100))
        report = report_of(text, lambda files, says: 'lost: one' if len(files) == 7 else '')
        self.assertGreater(report.counts.states, 5_000)
        self.assertLess(len(''.join(page_pieces(report))), SIZE)


class Differences(unittest.TestCase):
    def test_each_path_that_differs_has_a_line(self):
        def entry(data, mode=0o644):
            return Entry('u', 'u', mode, None if data is None else bytearray(data))

        failing = {
            '/a': entry(b'abcdefgh-old'),
            '/b': entry(b''),
            '/bytes': entry(b'ab'),
            '/d': entry(None, 0o700),
            '/same': entry(b'x'),
            '/short': entry(b'ab'),
        }
        good = {
            '/a': entry(b'abcdefgh-new'),
            '/c': entry(b'12'),
            '/bytes': entry(b'\0\xff'),
            '/d': entry(None),
            '/same': entry(b'x'),
            '/short': entry(b'abc'),
        }
        self.assertEqual(
            list(difference_lines(failing, good)),
            [
                '/a has 12 bytes in both; at byte 9 "old", in the good state "new"',
                '/b (0 bytes) is only in the failing state',
                '/bytes has 2 bytes in both; at byte 0 "ab", in the good state 00ff',
                '/c (2 bytes) is only in the good state',
                '/d is 700 u u, in the good state 644 u u',
                '/short has 2 bytes, in the good state 3 bytes; at byte 2 its end, in the good '
                'state "c"',
            ],
        )

    def test_the_nearest_good_state_lacks_or_has_the_least_beside(self):
        findings = odd_findings()
        group, kept = findings.groups[0], findings.plan.kept
        good = nearest_good_state(findings, group)
        self.assertEqual(findings.outcomes_by_state[good.number].result, GOOD)
        far = [
            bin(kept[state] ^ kept[group.example.number]).count('1')
            for state, one in findings.outcomes_by_state.items()
            if one.result == GOOD
        ]
        self.assertEqual(bin(kept[good.number] ^ kept[group.example.number]).count('1'), min(far))

    def test_bytes_are_text_only_if_all_are_printable(self):
        for data, text in (
            (b' az~', '" az~"'),
            (b'a\x1f', '611f'),
            (b'a\x7f', '617f'),
            (b'', 'its end'),
        ):
            self.assertEqual(bytes_text(data), text)

    def test_without_a_good_state_nothing_is_compared(self):
        findings = odd_findings()
        self.assertTrue(compared_states(findings))
        for number in findings.outcomes_by_state:
            findings.outcomes_by_state[number] = Outcome(BAD, 'odd')
        self.assertEqual(compared_states(findings), [])

    def test_all_trees_that_are_compared_are_asked_for_at_once(self):
        findings, asked = odd_findings(), []
        trees = SimpleNamespace(
            load=lambda numbers: asked.append(sorted(numbers)),
            of_states=lambda numbers: [{}, {}],
        )
        find_differences(SimpleNamespace(trees=trees), findings)
        compared = [
            number
            for group in findings.groups
            for number in (group.example.number, group.difference.good_state)
        ]
        self.assertEqual(asked, [sorted(compared)])

    def test_the_time_of_a_report_is_counted_from_when_it_was_made(self):
        before = time.monotonic()
        report = CheckReport(Head('a.trace', '', []))
        self.assertTrue(before <= report.begin <= time.monotonic())

    def test_equal_files_are_said_to_be_so(self):
        findings = odd_findings()
        findings.groups[0].difference = Difference(3, [])
        text = ''.join(page_pieces(reported(findings)))
        self.assertIn('has the same files as state 3, which is good: other lines', text)
        self.assertNotIn('<ul class="differences">', text)

    def test_they_are_shown_as_text(self):
        findings = odd_findings()
        findings.groups[0].difference = Difference(3, ['/<b> is only here'])
        report = reported(findings)
        text = ''.join(page_pieces(report))
        self.assertIn('and state 3, which is good', text)
        self.assertIn('<li>/&lt;b&gt; is only here</li>', text)
        fields = json.loads(''.join(json_pieces(report)))
        self.assertEqual(fields['groups'][0]['differences'], ['/<b> is only here'])


class JUnit(unittest.TestCase):
    def test_there_is_a_case_for_each_entry_and_one_for_the_others(self):
        report = odd_report()
        report.begin -= 8
        suite = minidom.parseString(''.join(junit_pieces(report))).documentElement
        cases = suite.getElementsByTagName('testcase')
        self.assertEqual(len(cases), len(report.groups()) + 1)
        self.assertEqual(int(suite.getAttribute('tests')), len(cases))
        self.assertEqual(
            int(suite.getAttribute('failures')), len(suite.getElementsByTagName('failure'))
        )
        self.assertEqual(cases[0].getAttribute('name'), 'lost: <file>\\x01')
        (failure,) = cases[0].getElementsByTagName('failure')
        message = failure.getAttribute('message')
        self.assertTrue(message.startswith('line 2 (creat /<b>&\\x01) was not durable when'))
        self.assertTrue(message.endswith('is never synced: fsync it between them'), message)
        for case in cases:
            self.assertGreaterEqual(float(case.getAttribute('time')), 0)
        self.assertGreater(float(suite.getAttribute('time')), 7)
        self.assertIn(
            'the directory / is never synced: fsync it between them', failure.firstChild.data
        )
        (output,) = cases[0].getElementsByTagName('system-out')
        self.assertEqual(output.firstChild.data, 'first\n<last>\\x01\n')
        self.assertRegex(cases[-1].getAttribute('name'), r'^all other states \(\d+\)$')

    def test_names_of_cases_are_unique(self):
        report = odd_report()
        groups = report.windows[0].groups
        first = groups[0]
        groups[:] = [
            replace(first, kept_line=None, lost_line=TraceLine(number, f'word {letter}'))
            for number, letter in enumerate('abc')
        ]
        suite = minidom.parseString(''.join(junit_pieces(report))).documentElement
        names = [one.getAttribute('name') for one in suite.getElementsByTagName('testcase')]
        self.assertEqual((len(names), len(set(names))), (4, 4))
        self.assertEqual(names[1], names[0] + ' (2)')

    def test_it_is_well_formed_for_any_name_of_a_trace(self):
        for name in ['a\x1b\0.trace', 'b\udcff\ufffe.trace', 'c"<>&\n.trace', '\u202ed']:
            report = odd_report()
            report.head.trace = name
            text = ''.join(junit_pieces(report))
            minidom.parseString(text.encode())
            self.assertNotIn('\u202e', text)

    def test_what_was_not_tried_is_an_error(self):
        report = odd_report()
        report.head.stopped = 'the time limit'
        suite = minidom.parseString(''.join(junit_pieces(report))).documentElement
        (error,) = suite.getElementsByTagName('error')
        self.assertEqual(suite.getAttribute('errors'), '1')
        self.assertRegex(error.parentNode.getAttribute('name'), '^all other states')
        self.assertRegex(error.getAttribute('message'), '^a.trace: .* micro-operations, ')

    def test_a_state_without_an_answer_is_an_error(self):
        findings = odd_findings()
        for group in findings.groups:
            group.outcome = Outcome(NO_ANSWER, group.outcome.cause)
        report = reported(findings)
        suite = minidom.parseString(''.join(junit_pieces(report))).documentElement
        self.assertEqual(
            (suite.getAttribute('failures'), suite.getAttribute('errors')),
            ('0', str(len(report.groups()))),
        )


if __name__ == '__main__':
    unittest.main()
