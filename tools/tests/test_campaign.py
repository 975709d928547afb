"""Sessions with one seed after another, of a store that is rarely wrong."""

import json
import os
import shutil
import signal
import unittest
from argparse import ArgumentTypeError
from dataclasses import replace
from pathlib import Path
from unittest import mock

from crashfs_tools.campaign import main
from crashfs_tools.campaign.book import Book, KnownFailure
from crashfs_tools.campaign.options import parse_seeds, parse_time_limit, read_options
from crashfs_tools.campaign.sessions import Failure, SessionVerdict
from crashfs_tools.common.signals import Stopped

from .support import PATIENCE, InFolder

# Saves a file whole, four times. With the seeds 3 and 5 the third save doesn't sync the directory,
# with the seed 4 the file itself; with the seed 7 the first one doesn't sync the directory.
SESSION = """\
#!/bin/sh
for version in 1 2 3 4; do
    echo "version $version" > config.new
    test $CRASHFS_SEED$version = 43 || sync config.new
    mv config.new config
    case $CRASHFS_SEED$version in 33|53|71) ;; *) sync . ;; esac
    echo "version $version"
done
"""
RECOVER = """\
#!/bin/sh
content=$(cat config 2>/dev/null)
case $content in ''|version\\ [1-4]) ;; *) echo corrupt: "$content"; exit 1 ;; esac
test "$CRASHFS_SAYS" = 0 || test "${content#version }" -ge "$CRASHFS_SAYS" || {
    echo lost: a version; exit 1; }
"""
LOST = 'lost: a version'


def new_campaign(words):
    """A campaign with the options of some words, whose RESULTS is made."""
    options = read_options(words)
    return main.Campaign(options, main.read_or_begin_book(options))


class Stores(InFolder):
    """Campaigns of sessions that aren't run: only their folders are made."""

    def by_other_user(self, action):
        """What a function returns in the test's folder, by another user than root, who may write
        everything; or how it fails."""
        reading, writing = os.pipe()
        child = os.fork()
        if child == 0:
            try:
                os.chdir(self.folder)
                if os.geteuid() == 0:
                    os.chown('.', 65534, 65534)
                    os.setgroups([])
                    os.setresgid(65534, 65534, 65534)
                    os.setresuid(65534, 65534, 65534)
                os.write(writing, json.dumps(action()).encode())
            except Exception as error:
                os.write(writing, json.dumps(repr(error)).encode())
            finally:
                os._exit(0)
        os.close(writing)
        with open(reading, encoding='utf-8') as shown:
            text = shown.read()
        os.waitpid(child, 0)
        return json.loads(text)

    def test_a_store_that_may_not_be_written_is_replaced_and_removed(self):
        stores = []

        def leave_closed_folder(*_):
            stores.append(os.listdir('found/work/store'))
            os.mkdir('found/work/store/closed')
            Path('found/work/store/closed/file').touch()
            os.chmod('found/work/store/closed', 0o500)
            return 3, ''

        def run():
            words = ['--seeds', '1-2', 'found', '--', 'true', '--', 'true']
            campaign = new_campaign(words)
            # The book is saved by its whole path, which may be closed to other users.
            with mock.patch.object(Book, 'save'):
                with mock.patch.object(campaign.sessions, 'run_tool', leave_closed_folder):
                    campaign.run()
            return stores, os.listdir('found')

        self.assertEqual(self.by_other_user(run), [[[], []], []])


@unittest.skipIf(shutil.which('strace') is None, 'strace not installed')
class Campaigns(InFolder):
    def setUp(self):
        super().setUp()
        self.session = self.write('session.sh', SESSION, 0o755)
        self.recover = self.write('recover.sh', RECOVER, 0o755)

    def campaign(self, *words, session=None):
        given = [*words, self.path('found'), '--', session or self.session, '--', self.recover]
        return self.run_tool('crashfs-campaign', '--check=--jobs 2 --quick --unproved', *given)

    def book(self):
        return json.loads(Path(self.path('found', 'campaign.json')).read_text('utf-8'))

    def test_the_first_session_of_each_failure_is_kept_and_shortened(self):
        ran = self.campaign('--seeds', '2-3', '--html', self.path('index.html'))
        self.assertEqual(ran.returncode, 1, ran.stderr)
        self.assertIn(f'crashfs-campaign: seed 3: new: {LOST}\n', ran.stderr)
        first, cause, where, *_ = ran.stdout.splitlines()
        self.assertEqual((first, cause), ('2 sessions: 1 failure', f'  {LOST}'))
        self.assertEqual(
            where, '    in 1 session, first with seed 3; kept: 3 acknowledged lines of 4'
        )
        self.assertIn('fsync the directory / between them', ran.stdout)
        trace = self.read('found/entry-1.trace')
        self.assertEqual(trace.count('"op":"say"'), 3)
        self.assertTrue(trace.endswith('"text":"version 3"}\n'), trace[-80:])
        self.assertIn('<a href="found/entry-1.html">', self.read('index.html'))
        self.assertIn('not durable', self.read('found/entry-1.html'))
        self.assertFalse(os.path.exists(self.path('found', 'work')))

    def test_the_same_command_continues_and_counts_what_is_known(self):
        self.campaign('--seeds', '3-3')
        ran = self.campaign('--seeds', '3-5')
        self.assertEqual(ran.returncode, 1)
        lines = ran.stdout.splitlines()
        self.assertEqual(lines[0], f'3 sessions: {len(self.book()["entries"])} different failures')
        self.assertIn('    in 2 sessions, first with seed 3; ', ran.stdout)
        self.assertNotIn('seed 5: new', ran.stderr)
        self.assertIn('seed 4: new: ', ran.stderr)
        self.assertEqual(self.book()['next_seed'], 6)
        again = self.campaign('--seeds', '3-5')
        self.assertEqual((again.stdout, again.stderr), (ran.stdout, ''))

    def test_a_later_session_that_fails_with_fewer_lines_is_kept_instead(self):
        first = self.campaign('--seeds', '3-3')
        self.assertIn(
            '    in 1 session, first with seed 3; kept: 3 acknowledged lines of 4\n', first.stdout
        )
        for seed, stderr in [
            ('5', ''),
            ('7', 'seed 7: shorter: 1 acknowledged line of 4 with seed 7: '),
        ]:
            ran = self.campaign('--seeds', f'{seed}-{seed}')
            self.assertEqual(ran.stderr, stderr and f'crashfs-campaign: {stderr}{LOST}\n')
        kept = 'kept: 1 acknowledged line of 4 with seed 7\n'
        self.assertIn(f'    in 3 sessions, first with seed 3; {kept}', ran.stdout)
        self.assertEqual(self.read('found/entry-1.trace').count('"op":"say"'), 1)
        self.assertIn('acknowledged &quot;version 1&quot;', self.read('found/entry-1.html'))
        self.assertIn('acknowledged "version 1"', ran.stdout)

    def test_two_entries_with_the_same_key_are_one_session(self):
        words = [self.path('found'), '--', self.session, '--', self.recover]
        campaign = new_campaign(words)
        entries = [Failure(f'lost: {name}', ['line 7 was not'], 3, 1) for name in 'ab']
        other = Failure('corrupt: a', [], 4, 1)
        trace = Path(self.write('session.trace', '{"op":"say","text":"x"}\n'))
        campaign.sessions = mock.Mock(trace=trace, folder=Path(self.folder))
        campaign.sessions.record.return_value = ''
        campaign.sessions.check.return_value = SessionVerdict([*entries, other])
        with mock.patch.object(main, 'print_line') as printed:
            campaign.try_seed(1)
            campaign.try_seed(2)
        self.assertEqual([one.sessions for one in campaign.book.entries.values()], [2, 2])
        self.assertEqual(
            [call.args[1] for call in printed.call_args_list],
            ['seed 1: new: lost: a', 'seed 1: new: corrupt: a'],
        )

    def test_now_and_then_a_line_says_how_many_sessions_were_tried(self):
        words = [self.path('found'), '--', self.session, '--', self.recover]
        campaign = new_campaign(words)
        campaign.sessions = mock.Mock(
            **{'record.return_value': '', 'check.return_value': SessionVerdict()}
        )
        with mock.patch.object(main, 'print_line') as printed:
            campaign.try_seed(1)
            self.assertEqual(printed.call_args_list, [])
            campaign.print_time -= main.EVERY_SECONDS
            campaign.try_seed(2)
            campaign.try_seed(3)
        line = 'seed 2: 2 sessions: none fails'
        self.assertEqual(printed.call_args_list, [mock.call('crashfs-campaign', line)])

    def test_the_page_has_the_commands_and_seeds_and_shows_all_text_as_text(self):
        words = ('--seeds', '2-2', '--html', self.path('page.html'), self.path('found'))
        commands = ('--', self.session, '\033[1m<b>', '--', self.recover)
        ran = self.run_tool('crashfs-campaign', '--check=--prefixes', *words, *commands)
        self.assertEqual((ran.returncode, ran.stderr), (0, ''))
        page = self.read('page.html')
        self.assertIn('<h1>Campaign of 1 session: none fails</h1>', page)
        shown = r'&#x27;\x1b[1m&lt;b&gt;&#x27;'
        self.assertIn(f'SESSION: {self.session} {shown}<br>', page)
        self.assertIn(f'<br>RECOVERY: {self.recover}<br>seeds up to 2; crashfs-campaign ', page)
        self.assertNotIn('\033', page)

    def test_a_store_that_is_right_has_the_status_of_none(self):
        ran = self.campaign('--seeds', '1-2', '--html', self.path('found', 'index.html'))
        self.assertEqual((ran.returncode, ran.stderr), (0, ''))
        self.assertEqual(ran.stdout, '2 sessions: none fails\n')
        self.assertIn('<h1>Campaign of 2 sessions', self.read('found/index.html'))

    def test_a_campaign_of_other_commands_is_not_continued(self):
        self.campaign('--seeds', '1-1')
        ran = self.campaign('--seeds', '1-2', session=self.recover)
        self.assertEqual((ran.returncode, ran.stdout), (2, ''))
        self.assertIn('campaign.json is of other commands: name another directory', ran.stderr)

    def test_a_session_without_a_verdict_is_reported_with_its_seed(self):
        session = self.write('broken.sh', '#!/bin/sh\nrmdir "$PWD"\n', 0o755)
        ran = self.campaign('--seeds', '1-1', session=session)
        self.assertEqual(ran.returncode, 3)
        self.assertRegex(ran.stdout, '^1 session: none fails; 1 session without a verdict\n')
        self.assertRegex(ran.stdout, r'\n    seed 1: crashfs-record: status 3: .')

    def test_a_stop_keeps_what_was_found(self):
        child = self.start(
            'crashfs-campaign',
            '--check=--jobs 2 --quick --unproved',
            *('--seeds', '3-1000000', self.path('found'), '--', self.session, '--', self.recover),
        )
        self.wait_until(lambda: os.path.exists(self.path('found', 'campaign.json')), 'a session')
        child.send_signal(signal.SIGTERM)
        out, err = child.communicate(timeout=PATIENCE)
        self.assertEqual(child.returncode, 143)
        self.assertIn('crashfs-campaign: stopped by SIGTERM\n', err)
        self.assertIn(f'\n  {LOST}\n', out)
        self.assertFalse(os.path.exists(self.path('found', 'work')))

    def test_a_stop_during_the_report_is_a_line_with_the_status_of_the_signal(self):
        words = [self.path('found'), '--', self.session, '--', self.recover]
        stop = Stopped(signal.SIGTERM)
        with mock.patch.multiple(
            main,
            raise_on_stop_signals=mock.DEFAULT,
            set_utf8_streams=mock.DEFAULT,
            report_campaign=mock.Mock(side_effect=stop),
            print_line=mock.DEFAULT,
        ) as replaced, mock.patch.object(main.Campaign, 'run'):
            self.assertEqual(main.main(words), 143)
        replaced['print_line'].assert_called_once_with('crashfs-campaign', 'stopped by SIGTERM')

    def test_a_stop_while_a_shorter_session_is_kept_leaves_the_entry(self):
        words = [self.path('found'), '--', self.session, '--', self.recover]
        campaign = new_campaign(words)
        entry = KnownFailure(Failure(LOST, [], 3, 1), 3, 1, says=4, shortest=3, kept_seed=3)
        shrinking = mock.Mock(say_places=[1, 2, 3, 4])
        shrinking.write_part.side_effect = Stopped(signal.SIGTERM)
        before = replace(entry)
        with self.assertRaises(Stopped):
            campaign.keep_session(entry, 7, shrinking, 1)
        self.assertEqual(entry, before)

    def test_ctrl_c_before_the_first_session_ends_the_command_without_a_word(self):
        os.makedirs(self.path('found'))
        os.mkfifo(self.path('found', 'campaign.json'))
        words = (self.path('found'), '--', self.session, '--', self.recover)
        child = self.start('crashfs-campaign', *words)
        # It is open for writing once the command has opened it to read.
        with open(self.path('found', 'campaign.json'), 'wb'):
            child.send_signal(signal.SIGINT)
            out, err = child.communicate(timeout=PATIENCE)
        self.assertEqual((child.returncode, out, err), (-signal.SIGINT, '', ''))

    def test_a_session_that_ignores_a_stop_is_killed(self):
        script = f"#!/bin/sh\ntrap '' TERM\necho > {self.path('begun')}\nsleep {2 * PATIENCE}\n"
        session = self.write('stubborn.sh', script, 0o755)
        words = (self.path('found'), '--', session, '--', self.recover)
        child = self.start('crashfs-campaign', *words)
        self.wait_until(lambda: os.path.exists(self.path('begun')), 'a session')
        child.send_signal(signal.SIGTERM)
        out, err = child.communicate(timeout=PATIENCE)
        self.assertEqual((child.returncode, out), (143, '0 sessions: none fails\n'))
        self.assertEqual(err, 'crashfs-campaign: stopped by SIGTERM\n')
        self.assertFalse(os.path.exists(self.path('found', 'work')))

    def test_a_campaign_with_a_time_limit_has_no_last_seed(self):
        commands = ['found', '--', 'true', '--', 'true']
        self.assertEqual(read_options(commands).seeds, (1, 100))
        self.assertGreater(read_options(['--time-limit', '3600', *commands]).seeds[1], 10**9)
        words = ['--time-limit', '3600', '--seeds', '5-7', *commands]
        self.assertEqual(read_options(words).seeds, (5, 7))

    def test_a_range_of_seeds_has_two_numbers_of_which_the_first_is_not_greater(self):
        self.assertEqual(parse_seeds('3-3'), (3, 3))
        for text in ('5-3', '3', '3-', '-3', '3-5-7', 'a-b', ''):
            with self.assertRaisesRegex(ArgumentTypeError, '^.* is no range such as 1-100$'):
                parse_seeds(text)

    def test_a_time_limit_is_above_0(self):
        self.assertEqual([parse_time_limit('1.5'), parse_time_limit('inf')], [1.5, float('inf')])
        for text in ('0', '-1', 'nan', 'x', ''):
            with self.assertRaisesRegex(ArgumentTypeError, '^.* is no number of seconds above 0$'):
                parse_time_limit(text)

    def test_options_of_the_commands_are_quoted_as_for_a_shell(self):
        commands = ['found', '--', 'true', '--', 'true']
        options = read_options(['--record', "--ignore 'a b'", '--check=--jobs 2', *commands])
        self.assertEqual(options.record, ['--ignore', 'a b'])
        self.assertEqual(options.check, ['--jobs', '2'])
        options = read_options(commands)
        self.assertEqual((options.record, options.check), ([], []))
        for option in ('--record', '--check'):
            for text in ("'", '"a', 'a\\'):
                ran = self.run_tool('crashfs-campaign', option, text, *commands)
                self.assertEqual(ran.returncode, 2, ran.stderr)
                self.assertIn(f'error: argument {option}: {text}: No ', ran.stderr)

    def test_results_that_are_no_directory_are_refused(self):
        self.write('file', '')
        self.write('\033[1mfile', '')
        os.symlink('nowhere', self.path('link'))
        os.makedirs(self.path('old', 'campaign.json'))
        book = os.path.join('old', 'campaign.json')
        for name, text in (
            ('file', 'file is no directory'),
            ('\033[1mfile', '\\x1b[1mfile is no directory'),
            ('link', 'link is no directory'),
            ('file/below', 'file/below: Not a directory'),
            ('old', f'{book}: Is a directory'),
        ):
            ran = self.run_tool('crashfs-campaign', name, '--', 'true', '--', 'true')
            line = f'crashfs-campaign: {text}\n'
            self.assertEqual((ran.returncode, ran.stdout, ran.stderr), (2, '', line))
        self.assertEqual(self.read('file'), '')

    def test_two_commands_are_needed(self):
        ran = self.run_tool('crashfs-campaign', self.path('found'), '--', self.session)
        self.assertEqual(ran.returncode, 2)
        self.assertIn('two commands are needed', ran.stderr)


if __name__ == '__main__':
    unittest.main()
