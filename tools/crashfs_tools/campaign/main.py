"""The command crashfs-campaign."""

from __future__ import annotations

import os
import sys
import time
from pathlib import Path
from typing import List, Optional

from crashfs_tools.common.command import Refused, print_line
from crashfs_tools.common.own_faults import print_own_fault
from crashfs_tools.common.printable import escape_unprintable
from crashfs_tools.common.removal import remove_tree
from crashfs_tools.common.signals import Stopped, raise_on_stop_signals
from crashfs_tools.common.streams import flushed_output, set_utf8_streams
from crashfs_tools.common.whole_files import folder_to_write, write_whole_file

from .book import WHOLE_SESSION, Book, KnownFailure, failures_by_key, read_book
from .options import NAME, CampaignOptions, read_options
from .report import length_text, page_text, report_lines, verdict_line
from .sessions import SessionVerdict, Failure, Sessions
from .shrinking import Shrinking, lines_of_trace

# The exit statuses, in addition to 0.
SOME_FAIL, BAD_INPUT, NO_VERDICT = 1, 2, 3
# If nothing else was printed for so long, a line says how many sessions were tried.
EVERY_SECONDS = 60.0


class Campaign:
    """A campaign: its sessions are tried one after another, and its book has what was found.
    results is the directory RESULTS, which must be there, and work a folder in it. print_time is
    when the campaign last printed a line, or began."""

    def __init__(self, options: CampaignOptions, book: Book) -> None:
        """A campaign that continues a book of read_or_begin_book(), which has made RESULTS. Nothing
        else is made yet."""
        self.options = options
        self.book = book
        self.results = Path(options.results)
        self.work = self.results / 'work'
        self.sessions = Sessions(options, self.work)
        self.print_time = time.monotonic()

    def run(self) -> None:
        """Tries the remaining seeds, in their order, up to the last one or until the time is over;
        a session that has begun is finished. The folder `work` is made first, in place of an old
        one, and removed in the end, also after an exception; what remove_tree() can't remove stays,
        without an error. OSError if the folder can't be made, or as remove_tree(). Raises what
        try_seed() does: the next run tries that seed again, unless the book was saved with it."""
        begin_time, last_seed = time.monotonic(), self.options.seeds.last
        remove_tree(str(self.work))
        self.work.mkdir()
        try:
            while self.book.next_seed <= last_seed:
                if time.monotonic() - begin_time >= self.options.time_limit:
                    return
                self.try_seed(self.book.next_seed)
        finally:
            remove_tree(str(self.work))

    def try_seed(self, seed: int) -> None:
        """Tries the session of a seed, adds what is found to the book, and saves the book. A
        session without a whole verdict is among the book's faults and counts as tried; failures
        that an incomplete check found count too. If nothing was printed for EVERY_SECONDS, prints a
        line. Raises what verdict_of_seed() and add_failure() do, and OSError as Book.save(). After
        an exception the book, but not its file, may have some of the seed's failures."""
        verdict = self.verdict_of_seed(seed)
        if verdict.fault:
            self.book.faults.append((seed, verdict.fault))
        for key, failure in failures_by_key(verdict.failures).items():
            self.add_failure(seed, key, failure)
        self.book.sessions += 1
        self.book.next_seed = seed + 1
        self.book.save()
        if time.monotonic() - self.print_time >= EVERY_SECONDS:
            self.print_progress(f'seed {seed}: {verdict_line(self.book)}')

    def verdict_of_seed(self, seed: int) -> SessionVerdict:
        """Records and checks the session of a seed. If it can't be recorded, the verdict is only
        that fault. Raises what Sessions.record() and Sessions.check() do."""
        fault = self.sessions.record(seed)
        return SessionVerdict(fault=fault) if fault else self.sessions.check(self.sessions.trace)

    def print_progress(self, line: str) -> None:
        """Prints a line on standard error, after the command's name and with its control characters
        as escapes, and sets print_time."""
        print_line(NAME, escape_unprintable(line))
        self.print_time = time.monotonic()

    def add_failure(self, seed: int, key: str, failure: Failure) -> None:
        """Counts a failure of the session that was recorded last, which is that of `seed`; to be
        called once for each of its keys. Keeps the session, cut to the shortest part that fails in
        the same way, if the failure is new, or if that part has fewer acknowledged lines than the
        kept one: then it prints a line. OSError if the session's trace can't be read; also raises
        what Shrinking does."""
        shrinking = Shrinking(self.sessions, key, lines_of_trace(self.sessions.trace))
        known_failure = self.book.entries.get(key)
        if known_failure is None:
            self.add_new_failure(seed, failure, shrinking)
        else:
            self.count_known_failure(seed, failure, known_failure, shrinking)

    def add_new_failure(self, seed: int, failure: Failure, shrinking: Shrinking) -> None:
        """Adds a failure that the book doesn't have, keeps its session, cut by `shrinking`, and
        prints a line. Raises what Shrinking does: then the book doesn't have it."""
        new_failure = KnownFailure(failure, seed, len(self.book.entries) + 1)
        line_count = shrinking.shortest_length() or WHOLE_SESSION
        self.keep_session(new_failure, seed, shrinking, line_count)
        self.book.entries[shrinking.key] = new_failure
        self.print_progress(f'seed {seed}: new: {failure.cause}')

    def count_known_failure(
        self, seed: int, failure: Failure, known_failure: KnownFailure, shrinking: Shrinking
    ) -> None:
        """Counts one more session of a failure that the book has. If the session, cut by
        `shrinking`, is shorter than the kept one, keeps it instead, and prints a line. `failure` is
        that of this session. Raises what Shrinking does: then the session is counted."""
        known_failure.sessions += 1
        line_count = shrinking.shortest_length(known_failure.most_lines)
        if line_count is not None:
            self.keep_session(known_failure, seed, shrinking, line_count)
            self.print_progress(
                f'seed {seed}: shorter: {length_text(known_failure)}: {failure.cause}'
            )

    def keep_session(
        self, entry: KnownFailure, seed: int, shrinking: Shrinking, line_count: int
    ) -> None:
        """Keeps the session of a seed, up to the acknowledged line number line_count, or all of it
        for WHOLE_SESSION, as the shortest one of an entry's failure: replaces the entry's trace and
        page, and then notes the session in the entry. If a check of the cut session finds the
        failure, the entry describes it as found there. Raises what Shrinking.write_part() does: the
        entry is as before, but a file of it may be replaced."""
        cut_failure = shrinking.write_part(
            line_count, self.results / entry.trace, self.results / entry.page
        )
        entry.kept_seed, entry.says, entry.shortest = seed, len(shrinking.say_places), line_count
        entry.failure = cut_failure or entry.failure


def read_or_begin_book(options: CampaignOptions) -> Book:
    """The book that an earlier run left in the directory RESULTS, or a new one. Makes RESULTS, and
    those above it, if it isn't there. Refused as in read_book(), if RESULTS can't be made, or if
    its campaign.json can't be read."""
    results = Path(options.results)
    try:
        results.mkdir(parents=True, exist_ok=True)
        return read_book(results / 'campaign.json', options.identity(), options.seeds.first)
    except FileExistsError as error:
        raise Refused(f'{options.results} is no directory') from error
    except OSError as error:
        raise Refused(f'{error.filename}: {error.strerror}') from error


def run_campaign(arguments: List[str]) -> int:
    """Runs a campaign, prints its report, and returns the status. Once the campaign has begun, the
    first signal of a stop ends it, with a report, and later ones are ignored; a stop during the
    report is raised as Stopped. Refused input gives a line and the status BAD_INPUT. A wrong word,
    --help and --version end the program (SystemExit). Any other error is raised, without a report:
    what was saved stays."""
    try:
        options = read_options(arguments)
        campaign = Campaign(options, read_or_begin_book(options))
        # The page may be in RESULTS, which is there now.
        if options.html is not None:
            folder_to_write(options.html)
    except Refused as refused:
        print_line(NAME, escape_unprintable(str(refused)))
        return BAD_INPUT
    raise_on_stop_signals()
    stopped = None
    try:
        campaign.run()
    except Stopped as stop:
        stopped = stop
        print_line(NAME, f'stopped by {stop}')
    report_campaign(options, campaign.book)
    return stopped.status if stopped else exit_status(campaign.book)


def report_campaign(options: CampaignOptions, book: Book) -> None:
    """Prints what was found on standard output, and then, if --html names a page, writes that.
    OSError if either can't be written."""
    with flushed_output():
        print('\n'.join(report_lines(options, book)))
    if options.html is not None:
        folder = os.path.dirname(os.path.abspath(options.html))
        write_whole_file(options.html, [page_text(options, book, folder)])


def exit_status(book: Book) -> int:
    """The exit status: SOME_FAIL if the book has a failure, else NO_VERDICT if a session has no
    verdict, else 0. What earlier runs found counts too."""
    if book.entries:
        return SOME_FAIL
    return NO_VERDICT if book.faults else 0


def main(arguments: Optional[List[str]] = None) -> int:
    """Runs crashfs-campaign with these words, or those of its command line, and returns its status.
    The standard streams are UTF-8 from then on. A stop during the report gives a line and the
    signal's status, any other Exception a line and the status NO_VERDICT; SystemExit is raised as
    in run_campaign()."""
    words = sys.argv[1:] if arguments is None else arguments
    set_utf8_streams()
    try:
        return run_campaign(words)
    except Stopped as stop:
        print_line(NAME, f'stopped by {stop}')
        return stop.status
    except Exception as error:
        print_own_fault(NAME, error)
        return NO_VERDICT
