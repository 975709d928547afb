"""Checks whose COMMAND gives no answer."""

from crashfs_tools.checker.findings.advice import no_loss_advice

from .test_check_runs import InCounted


class NoAnswer(InCounted):
    def test_a_command_that_ends_in_neither_tree_is_tried_nowhere_else(self):
        for script, cause in (
            ('exec sleep 60', 'it had not ended after 2 seconds'),
            ('exec yes', 'it printed more than 16 MB'),
        ):
            ran = self.check('--timeout', '2', self.good, command=self.counted(script))
            self.assertEqual((ran.returncode, ran.stdout), (2, ''), ran.stderr)
            first_line = f'COMMAND gives no answer, even where nothing is lost: {cause}'
            self.assertIn(f'crashfs-check: {first_line}\n', ran.stderr)
            self.assertIn('crashfs-check: inspect it with --state 0\n', ran.stderr)
            self.assertEqual(self.ran(), [11, 0])

    def test_a_command_that_ends_only_later_gives_no_answer_from_the_beginning(self):
        script = 'test $CRASHFS_STATE != 0 || exec sleep 60'
        ran = self.check('--timeout', '2', self.good, command=self.counted(script))
        self.assertEqual(ran.returncode, 3, ran.stderr)
        self.assertIn('it gives no answer, though nothing is lost', ran.stdout)
        self.assertNotIn('it fails, though', ran.stdout)

    def test_the_advice_says_what_command_does(self):
        (line,) = no_loss_advice(None, None, 'gives no answer').lines()
        self.assertEqual(line, 'from the beginning on it gives no answer, though nothing is lost')
