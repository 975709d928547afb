"""Entries of a report: what is put together, which lines are named, and what is advised. The states
are judged here, by their trees, without a command."""

import unittest

from crashfs_tools.checker.findings.advice import AdviceResult
from crashfs_tools.checker.findings.groups import Findings
from crashfs_tools.checker.report.report import CheckReport
from crashfs_tools.checker.report.json_report import group_fields
from crashfs_tools.checker.report.text import ReportText
from crashfs_tools.checker.running.results import Head, Results
from crashfs_tools.checker.running.runner import BAD, GOOD, Outcome
from crashfs_tools.checker.states.read_plan import read_plan
from crashfs_tools.common.printable import COLUMNS
from crashfs_tools.common.trace_lines import TraceLine, parse_trace_text
from crashfs_tools.common.trace_lines import with_syncs, without_numbers
from crashfs_tools.reading import make_plan, parse_trace
from crashfs_tools.reading.listing import json_listing
from crashfs_tools.reading.picking import different_places
from crashfs_tools.reading.plan import file_sets, lost_sets

from .random_traces import RandomTrace
from .support import FAKE
from .test_check_command import InStore

RIGHTS = '"owner":"u","group":"u","mode":"755"'
HEADER = '{"trace":1,%s}\n' % RIGHTS
ORDERED = '{"trace":2,"profile":"ordered",%s}\n' % RIGHTS
THIRD = '{"trace":3,"profile":"blocks","block":4096,%s}\n' % RIGHTS


def line(op, path='', **fields):
    words = {'op': op, **({'path': path} if path else {}), **fields}
    shown = ','.join(
        f'"{key}":{value}' if isinstance(value, int) else f'"{key}":"{value}"'
        for key, value in words.items()
    )
    rights = ',' + RIGHTS if op in ('creat', 'mkdir') else ''
    return '{' + shown + rights + '}\n'


def write(path, data, offset=0):
    return line('write', path, offset=offset, bytes=data.encode().hex())


def rename(old, new):
    return line('rename', **{'from': old, 'to': new})


def plan_text(text, picks=True):
    """The plan with all families, as `list` prints it."""
    plain = make_plan(reading := parse_trace(text.encode()))
    order, trees = plain.order, plain.trees
    families = (lost_sets(order), file_sets(order, trees)) if picks else ()
    sets = [one for family in families for one in different_places(family)]
    return ''.join(json_listing(make_plan(reading, has_holes=True, picks=sets)))


def findings_of(text, cause):
    """What is found if a state's cause is what a function makes of its files and its lines."""
    head = Head('a.trace', '', [], lines=parse_trace_text(text).operations)
    results = Results(read_plan(plan_text(text)))
    trees = make_plan(parse_trace(text.encode())).trees
    for state in results.plan.states:
        files = {
            path: item.content
            for path, item in trees.tree(results.plan.kept[state.number]).items()
            if item.data is not None
        }
        found = cause(files, state.says)
        results.outcomes[state.number] = Outcome(BAD, found) if found else Outcome(GOOD)
    return Findings(head, results, {})


def report_of(text, cause):
    return reported(findings_of(text, cause))


def reported(findings):
    report = CheckReport(findings.head, has_json=True, has_page=True)
    report.add(findings)
    return report


class Plans(unittest.TestCase):
    def test_states_are_those_of_version_3(self):
        """What a trace of version 1 has beside is left out."""
        fewer = 0
        for seed in range(100):
            text = RandomTrace(1, seed).text()
            try:
                listed = plan_text(text, picks=False)
            except Exception:
                continue  # Its last line has a fault.
            plan = read_plan(listed)
            third = text.replace('"trace":1', '"trace":3,"profile":"blocks","block":4096', 1)
            wanted = make_plan(parse_trace(third.encode()), has_holes=True)
            found = [(plan.state_text(one), plan.kept[one.number]) for one in plan.states]
            self.assertEqual(found, [(one.text, one.place_set) for one in wanted.states])
            fewer += len(plan.states) < len(plan.listed)
        self.assertGreater(fewer, 50)

    def test_a_hole_keeps_what_doesn_t_need_the_lost_one(self):
        for seed in range(100):
            text = RandomTrace(3, seed).text()
            try:
                listed = plan_text(text)
            except Exception:
                continue
            plan = read_plan(listed)
            wanted = make_plan(parse_trace(text.encode()), has_holes=True).states
            self.assertEqual(
                [plan.kept[one.number] for one in plan.listed][: len(wanted)],
                [state.place_set for state in wanted],
            )
            self.assertEqual(plan.states, plan.listed)
            self.assertTrue(all(map(plan.needs.is_allowed, plan.kept.values())))


class Groups(unittest.TestCase):
    def test_a_cause_is_blamed_on_its_own_file(self):
        """Two files are replaced, and both entries are lost until the end."""
        text = ORDERED + ''.join(
            '{"start":"file","path":"%s",%s,"bytes":"30"}\n' % (path, RIGHTS)
            for path in ('/a', '/b')
        )
        for path in ('/a', '/b'):
            text += line('creat', path + '+') + write(path + '+', '1')
            text += line('fsync', path + '+') + rename(path + '+', path)
        text += line('say', text='stored')

        def cause(files, says):
            old = [path[1:] for path in ('/a', '/b') if files[path] == b'0']
            return f'lost: {old[0]} is old' if says and old else ''

        report = report_of(text, cause)
        self.assertEqual(
            {(group.outcome.cause, group.lost_line.text) for group in report.groups()},
            {('lost: a is old', 'rename /a+ to /a'), ('lost: b is old', 'rename /b+ to /b')},
        )

    def test_a_missing_sync_is_one_entry_with_one_advice(self):
        text = HEADER + line('creat', '/log') + line('fsync', '/')
        text += write('/log', 'one') + line('say', text='one')
        text += write('/log', 'two', 3) + line('fsync', '/log') + line('say', text='two')
        report = report_of(
            text,
            lambda files, says: ''
            if len(files.get('/log', b'').replace(b'\0', b'')) >= 3 * says
            else f'lost: row {says}',
        )
        self.assertEqual(len(report.groups()), 1)
        self.assertEqual(
            report.groups()[0].advice.lines(),
            [
                'line 4 (write /log, 3 bytes at 0) was not durable when line 5 acknowledged "one":',
                'fsync /log between them',
            ],
        )
        self.assertEqual(report.groups()[0].advice.syncs, {4: '/log'})

    def test_names_and_causes_that_differ_in_numbers_are_one_entry(self):
        text, count = HEADER, 3
        for number in range(count):
            text += line('creat', f'/seg{number}') + line('say', text=f'{number}')

        def cause(files, says):
            gone = [number for number in range(says) if f'/seg{number}' not in files]
            return f'lost: segment {gone[0]}' if gone else ''

        (group,) = report_of(text, cause).groups()
        self.assertEqual((group.lost_line.path, group.line_pairs[0]), ('/seg0', (2, 3)))
        advice = group.advice
        self.assertEqual(advice.syncs, {2: '/', 4: '/', 6: '/'})
        self.assertEqual(
            advice.remedy,
            'the directory / is never synced: fsync it between them '
            f'(and at {len(group.line_pairs) - 1} more places)',
        )

    def test_the_example_lacks_the_least_and_what_else_it_lacks_is_reported(self):
        text = HEADER + line('creat', '/t') + write('/t', 'x') + rename('/t', '/f')
        text += line('creat', '/g') + line('say', text='one')
        findings = findings_of(
            text, lambda files, says: 'lost: f' if says and not files.get('/f') else ''
        )
        report, plan = reported(findings), findings.plan
        whole = '\n'.join(ReportText(report).lines())
        for group in report.groups():
            lacking = [bin(plan.set_lost_by(state)).count('1') for state in group.states]
            self.assertEqual(bin(plan.set_lost_by(group.example)).count('1'), min(lacking))
        self.assertIn(
            'line 4 (rename /t to /f) was not durable when line 6 acknowledged "one":', whole
        )

    def test_a_sync_of_another_file_is_shown(self):
        text = THIRD + line('creat', '/t', note='put (kv.py:8)') + write('/t', 'x')
        text += line('creat', '/u') + line('fsync', '/u') + line('fsync', '/') + rename('/t', '/f')
        report = report_of(
            text, lambda files, says: 'corrupt: f' if files.get('/f', b'x') != b'x' else ''
        )
        self.assertIn('    line 6 is fsync /, which is not enough', ReportText(report).lines())
        self.assertNotIn('fsync /u,', ' '.join(ReportText(report).lines()))
        self.assertIn('    fsync /t between them', ReportText(report).lines())

    def test_a_sync_belongs_before_the_first_rename_of_its_file(self):
        text = HEADER + line('creat', '/t') + rename('/t', '/a') + line('creat', '/t')
        text += line('fsync', '/') + write('/t', 'x') + rename('/a', '/b')
        text += rename('/t', '/f') + rename('/f', '/t')
        text += rename('/t', '/f') + line('fsync', '/') + line('say', text='one')
        (group,) = report_of(
            text, lambda files, says: 'lost: f' if says and b'x' not in files.values() else ''
        ).groups()
        self.assertEqual(
            group.advice.remedy, 'fsync /t between them, before line 8 (rename /t to /f)'
        )
        self.assertEqual(group.advice.syncs, {6: '/t'})

    def test_the_notes_of_the_two_lines_are_shown(self):
        text = THIRD + line('creat', '/f', note='put (kv.py:8)') + line('say', text='a', note='ack')
        report = report_of(text, lambda files, says: 'lost: f' if says and not files else '')
        self.assertEqual(
            [one.strip() for one in ReportText(report).lines()[2:4]],
            ['line 2: put (kv.py:8)', 'line 3: ack'],
        )

    def test_notes_are_shown_in_the_order_of_their_lines_and_once(self):
        text = THIRD + line('creat', '/f', note='a') + line('fsync', '/')
        text += line('write', '/f', offset=0, bytes='aa' * 5000, note='b')
        empty = report_of(text, lambda files, says: 'empty' if files.get('/f') == b'' else '')
        lines = [one.strip() for one in ReportText(empty).lines()]
        self.assertEqual(lines[2:4], ['line 2: a', 'line 4: b'])
        torn = report_of(text, lambda files, says: 'torn' if b'\0' in files.get('/f', b'') else '')
        self.assertEqual(
            [one.strip()[:9] for one in ReportText(torn).lines()[2:5]],
            ['line 4: b', 'line 4 (w', 'no sync h'],
        )

    def test_a_torn_line_and_a_change_in_two_lines_are_reported_as_such(self):
        text = HEADER + line('creat', '/f') + line('fsync', '/') + write('/f', 'x' * 5000)
        report = report_of(
            text, lambda files, says: 'torn: f' if b'\0' in files.get('/f', b'') else ''
        )
        self.assertIn(
            'was torn: a crash kept its length, not its bytes (zeros)',
            report.groups()[0].advice.text[0],
        )
        text = HEADER + line('creat', '/a') + line('fsync', '/') + line('creat', '/b')
        report = report_of(text, lambda files, says: '' if len(files) in (0, 2) else 'half')
        text, remedy = report.groups()[0].advice.lines()
        self.assertTrue(text.startswith('from line 2 (creat /a) until line 4 (creat /b) it fails'))
        self.assertIn('no sync helps: make these lines one change', remedy)

    def test_lines_are_apart_if_neither_names_what_the_other_does(self):
        log = TraceLine(2, 'truncate', '/log')
        table = TraceLine(3, 'rename', '/table.new', '/table')
        self.assertTrue(log.is_apart_from(table) and table.is_apart_from(log))
        for path in ('/table', '/table.new', '/table/x', '/'):
            other = TraceLine(2, 'creat', path)
            self.assertFalse(other.is_apart_from(table) or table.is_apart_from(other), path)

    def test_a_change_before_its_line_is_asked_of_the_command(self):
        """A check that asks for what only a later line acknowledges is wrong itself."""
        text = HEADER + line('creat', '/old') + line('fsync', '/') + line('unlink', '/old')
        text += line('fsync', '/') + line('say', text='it is removed')
        report = report_of(text, lambda files, says: '' if says or '/old' in files else 'lost: old')
        span = [group.advice.lines() for group in report.groups() if not group.is_due_to_loss]
        remedies = [one[1] for one in span if 'say "it is removed"' in one[0]]
        self.assertTrue(remedies, span)
        for remedy in remedies:
            self.assertTrue(remedy.endswith('does COMMAND accept it?'), remedy)

    def test_no_line_but_the_first_is_longer_than_the_width(self):
        name = '/' + 'n' * 200
        text = HEADER + line('creat', name) + line('say', text='s' * 300)
        report = report_of(
            text, lambda files, says: 'lost: ' + 'as ' * 60 if says and not files else ''
        )
        self.assertTrue(all(len(one) <= COLUMNS for one in ReportText(report).lines()[1:]))
        self.assertIn(name, group_fields(report, report.groups()[0])['text'][0])

    def test_a_cause_is_shown_as_it_is(self):
        text = HEADER + line('creat', '/f') + line('say', text='a')
        report = report_of(
            text,
            lambda files, says: 'it was started as --force,  --x' if says and not files else '',
        )
        self.assertTrue(
            ReportText(report).lines()[1].startswith('  it was started as --force,  --x  ')
        )


class Texts(unittest.TestCase):
    def test_numbers_and_random_parts_are_left_out(self):
        for one, other in [
            ('seg12.log', 'seg7.log'),
            ('tmp_obj_aB3xYz', 'tmp_obj_KqWxYz'),
            ('/o/3f/a8b2c4d6e8', '/o/b7/0f1e2d3c4b'),
            ('/objects/2a/tmp_obj_aB3xYz', '/objects/fe/tmp_obj_KqWxYz'),
            ('/.git/objects/2b', '/.git/objects/fe'),
            ('/o/2a/tmp_obj_aB3xYz', '/o/fe/tmp_obj_KqWxYz'),
            ('row 3: 0x1f', 'row 12: 0x2f'),
            ('f.Q7a9B2', 'f.p3X8k1'),
        ]:
            self.assertEqual(without_numbers(one), without_numbers(other))
        for one, other in [
            ('journal1', 'segment1'),
            ('/db', '/fe'),
            ('/objects/db/x', '/objects/fed/x'),
            ('/objects/dbx', '/objects/fex'),
            ('/f.commit', '/f.backup'),
            ('/FooBar', '/BarFoo'),
            ('test.db', 'test.db-journal'),
            ('lost: a', 'lost: b'),
            ('/data.log', '/data.tmp'),
        ]:
            self.assertNotEqual(without_numbers(one), without_numbers(other))

    def test_what_was_tried_is_reported(self):
        for tried, syncs, wanted in [
            (
                AdviceResult(0, 52, 0),
                1,
                'with that sync 0 of these 52 states are left, and no other ' 'fails',
            ),
            (
                AdviceResult(0, 52, 2),
                3,
                'with those 3 syncs 0 of these 52 states are left, and 2 ' 'others fail',
            ),
            (
                AdviceResult(0, 52, 2, 2),
                1,
                'with that sync 0 of these 52 states are left, and 2 ' 'others still fail',
            ),
            (
                AdviceResult(0, 52, 1, 1),
                1,
                'with that sync 0 of these 52 states are left, and 1 ' 'other still fails',
            ),
            (
                AdviceResult(5, 52, 0),
                1,
                'with that sync 5 of these 52 states are left, so one sync is '
                'not enough, and no other fails',
            ),
            (AdviceResult(0, 1, 0), 1, 'with that sync this state is not left, and no other fails'),
        ]:
            self.assertEqual(tried.text(syncs), 'tried: ' + wanted)

    def test_the_sync_of_a_name_is_one_of_the_directory_that_it_is_in_then(self):
        lines = parse_trace_text(
            line('rename', **{'from': '/d/t', 'to': '/f'})
            + line('unlink', '/d/x')
            + line('chmod', '/d', mode='700')
        ).operations
        self.assertEqual([one.path_to_fsync for one in lines.values()], ['/', '/d', '/d'])

    def test_syncs_come_after_their_lines(self):
        text = HEADER + line('creat', '/f') + line('creat', '/g') + line('say', text='a')
        self.assertEqual(
            with_syncs(text, [(2, '/'), (3, '/g')]),
            HEADER
            + line('creat', '/f')
            + '{"op": "fsync", "path": "/"}\n'
            + line('creat', '/g')
            + '{"op": "fsync", "path": "/g"}\n'
            + line('say', text='a'),
        )


class Tries(InStore):
    def test_a_second_fault_is_reported_after_the_advice_for_the_first(self):
        """Each of two files is lost; the sync of one mends only that."""
        text = HEADER + line('creat', '/a') + line('creat', '/b') + line('fsync', '/')
        text += write('/a', '1') + write('/b', '1') + line('say', text='stored')
        trace = self.write('two.trace', text)
        check = self.write(
            'check.sh',
            '#!/bin/sh\ntest $CRASHFS_SAYS = 0 && exit\n'
            'for f in a b; do grep -q 1 $f || { echo "lost: $f"; exit 1; }; done\n',
            0o755,
        )
        ran = self.run_tool('crashfs-check', '--crashfs', FAKE, trace, '--', check)
        self.assertEqual(ran.returncode, 1, ran.stderr)
        lines = [one.strip() for one in ran.stdout.splitlines()]
        first = lines.index('fsync /a between them')
        self.assertRegex(
            lines[first + 1],
            'tried: with that sync 0 of these [0-9]+ states are '
            'left, and [0-9]+ others still fail',
        )
        self.assert_nothing_left()


if __name__ == '__main__':
    unittest.main()
