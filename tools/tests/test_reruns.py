"""Failures that don't come again: a port that is taken, a file that several runs share."""

import json
import os
import unittest

from .support import FAKE, needs_strace
from .test_check_command import InStore
from .test_groups import THIRD, line, write

# Fails in the runs with these numbers.
FLAKY = """\
#!/bin/sh
echo run >> {runs}
number=$(wc -l < {runs})
for failing in {failing}; do
    test "$number" -eq "$failing" && {{ echo "bind: the address is in use"; exit 1; }}
done
test "$CRASHFS_SAYS" = 0 || test -s log || {{ echo 'lost: the row'; exit 1; }}
"""

# Fails in its sixth run. It counts by directories, which are no files that it opens.
COUNTS = """\
#!/bin/sh
number=1
while ! mkdir {runs}/$number 2> /dev/null; do number=$((number + 1)); done
test "$number" -ne 6 || {{ echo "bind: the address is in use"; exit 1; }}
"""


class Reruns(InStore):
    def trace(self):
        text = THIRD + line('creat', '/log') + line('fsync', '/') + write('/log', 'row')
        return self.write('log.trace', text + line('say', text='stored'))

    def check(self, failing, *words):
        trace = self.trace()
        runs = self.write('runs', '')
        script = FLAKY.format(runs=runs, failing=failing)
        command = self.write('flaky.sh', script, 0o755)
        return self.run_tool(
            'crashfs-check', '--crashfs', FAKE, '--jobs', '1', *words, trace, '--', command
        )

    def entries(self, ran):
        """The lines below each cause."""
        found, lines = {}, []
        for shown in ran.stdout.splitlines()[1:]:
            if not shown.startswith('    '):
                lines = found.setdefault(shown.split('  ')[1].strip(), [])
            else:
                lines.append(shown.strip())
        return found

    def test_a_failure_that_does_not_come_again_has_no_advice(self):
        ran = self.check('4', '--json', 'r.json')
        entries = self.entries(ran)
        self.assertEqual(set(entries), {'bind: the address is in use', 'lost: the row'})
        flaky = entries['bind: the address is in use']
        self.assertEqual(flaky[0], 'not reproducible: another run passed')
        self.assertIn('(try --jobs 1)', flaky[1])
        self.assertNotIn('was not durable', ' '.join(flaky))
        self.assertIn('fsync /log between them', entries['lost: the row'])
        self.assertEqual(ran.returncode, 1)
        reruns = json.loads(self.read('r.json'))['windows'][0]['reruns']
        self.assertEqual(sorted(one[0] for one in reruns.values()), ['bad', 'good'])

    def test_failures_that_do_not_come_again_are_one_entry(self):
        ran = self.check('3 5', '--prefixes')
        self.assertEqual(ran.stdout.count('not reproducible'), 1, ran.stdout)
        self.assertEqual(ran.stdout.count('  bind: '), 1)

    def test_a_failure_that_comes_again_keeps_its_advice(self):
        entries = self.entries(self.check(''))
        self.assertEqual(list(entries), ['lost: the row'])
        self.assertNotIn('not reproducible: another run passed', entries['lost: the row'])

    def test_a_check_that_ends_at_the_first_failure_runs_it_again_too(self):
        ran = self.check('4', '--fail-fast')
        self.assertIn('    not reproducible: another run passed', ran.stdout.splitlines())
        self.assert_nothing_left()

    def test_merged_reports_keep_what_the_second_run_found(self):
        self.check('4', '--json', 'r.json')
        ran = self.run_tool('crashfs-check', '--merge', 'r.json')
        self.assertIn('    not reproducible: another run passed', ran.stdout.splitlines())

    @needs_strace
    def test_a_failure_that_does_not_come_again_is_not_cached(self):
        os.mkdir(self.path('counted'))
        command = self.write('counts.sh', COUNTS.format(runs=self.path('counted')), 0o755)
        words = '--crashfs', FAKE, '--jobs', '1', '--cache', 'cache', self.trace(), '--', command
        first = self.run_tool('crashfs-check', *words)
        self.assertIn('    not reproducible: another run passed', first.stdout.splitlines())
        second = self.run_tool('crashfs-check', *words)
        self.assertIn('none fails', second.stdout)
        self.assertIn('outcomes from earlier checks (--cache)', second.stdout)

    def test_second_runs_are_merged_from_all_reports_in_any_order(self):
        self.check('', '--shard', '1/2', '--json', 's1.json')
        self.check('4', '--shard', '2/2', '--json', 's2.json')
        (first, second) = [
            self.run_tool('crashfs-check', '--merge', *names)
            for names in (('s1.json', 's2.json'), ('s2.json', 's1.json'))
        ]
        self.assertIn('    not reproducible: another run passed', first.stdout.splitlines())
        self.assertEqual(first.stdout, second.stdout)


if __name__ == '__main__':
    unittest.main()
