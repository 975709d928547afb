"""What is printed of a campaign, and its page."""

from __future__ import annotations

import html
import os
import shlex
from typing import Iterator

from crashfs_tools.common.command import version_text
from crashfs_tools.common.pages import html_text, present_time
from crashfs_tools.common.printable import count_text, escape_unprintable, folded_lines

from .book import WHOLE_SESSION, Book, KnownFailure
from .options import NAME, CampaignOptions

# That of the lines below the first one.
INDENT = '    '
# No more sessions without a verdict are printed.
MOST_FAULTS = 20


def verdict_line(book: Book) -> str:
    """The first line of the report: how many sessions were tried, how many different failures they
    have, and how many have no verdict, if any."""
    count = len(book.entries)
    verdict = {0: 'none fails', 1: '1 failure'}.get(count, f'{count} different failures')
    faults = f'; {count_text(len(book.faults), "session")} without a verdict' if book.faults else ''
    return f'{count_text(book.sessions, "session")}: {verdict}{faults}'


def length_text(entry: KnownFailure) -> str:
    """How many of its session's acknowledged lines the kept trace has, or `the whole session`, and
    the seed of that session, unless the failure came with it first. In an older book kept_seed is
    0: then it is the first seed."""
    lines = f'{count_text(entry.shortest, "acknowledged line")} of {entry.says:,}'
    length = 'the whole session' if entry.shortest == WHOLE_SESSION else lines
    is_first = entry.kept_seed in (0, entry.seed)
    return length if is_first else f'{length} with seed {entry.kept_seed}'


def sessions_text(entry: KnownFailure) -> str:
    """In how many sessions a failure was found, in which one first, and what is kept of it."""
    found = f'in {count_text(entry.sessions, "session")}, first with seed {entry.seed}'
    return f'{found}; kept: {length_text(entry)}'


def state_command(options: CampaignOptions, entry: KnownFailure) -> str:
    """The command, quoted for a shell, that lays out the example of a failure: a failing state of
    the kept trace. If RESULTS is relative, it works only in the directory in which the campaign
    ran."""
    trace = os.path.join(options.results, entry.trace)
    words = ['crashfs-check', *options.check, '--state', str(entry.failure.example), trace, '--']
    return shlex.join([*words, *options.recovery])


def report_lines(options: CampaignOptions, book: Book) -> Iterator[str]:
    """The lines of the report: the verdict, each failure, and the first MOST_FAULTS sessions
    without a verdict. Control characters are shown as escapes, except in a command."""
    yield verdict_line(book)
    for entry in book.entries.values():
        yield from failure_lines(options, entry)
    faults = (f'seed {seed}: {text}' for seed, text in book.faults[:MOST_FAULTS])
    yield from folded_lines(faults, INDENT, may_break_words=True)


def failure_lines(options: CampaignOptions, entry: KnownFailure) -> Iterator[str]:
    """The lines of the report on one failure: its cause, its sessions, its sentences, and the
    command that lays out its example. That may be copied, so its control characters aren't shown as
    escapes."""
    yield f'  {escape_unprintable(entry.failure.cause)}'
    yield f'{INDENT}{sessions_text(entry)}'
    yield from folded_lines(entry.failure.text, INDENT, may_break_words=True)
    yield f'{INDENT}{state_command(options, entry)}'


STYLE = (
    'body{font:16px/1.5 sans-serif;max-width:60em;margin:2em auto;padding:0 1em}'
    'pre{white-space:pre-wrap;overflow-wrap:anywhere}.about{opacity:.7;overflow-wrap:anywhere}'
)
PAGE = (
    '<!DOCTYPE html>\n<html lang="en"><head><meta charset="utf-8">'
    '<meta name="viewport" content="width=device-width">'
    '<meta name="color-scheme" content="light dark">'
    '<title>{title}</title><style>{style}</style></head>\n'
    '<body><h1>{title}</h1>\n<p class="about">{about}</p>\n{body}</body></html>\n'
)


def page_text(options: CampaignOptions, book: Book, folder: str) -> str:
    """A page, as HTML, of all failures and all sessions without a verdict, with the present date.
    Each failure has a link to its own page, relative to `folder`, the directory of this page."""
    body = ''.join(failure_section(options, entry, folder) for entry in book.entries.values())
    faults = ''.join(f'<li>seed {seed}: {html_text(text)}</li>' for seed, text in book.faults)
    body += f'<h2>Without a verdict</h2><ul>{faults}</ul>\n' if faults else ''
    title = html_text(f'Campaign of {verdict_line(book)}')
    about = '<br>'.join(html_text(line) for line in about_lines(options, book))
    return PAGE.format(title=title, style=STYLE, about=about, body=body)


def about_lines(options: CampaignOptions, book: Book) -> Iterator[str]:
    """What the page says below its title: the two commands, the seed before the next one to try,
    the version, and the present date and time in UTC."""
    yield f'SESSION: {shlex.join(options.session)}'
    yield f'RECOVERY: {shlex.join(options.recovery)}'
    yield f'seeds up to {book.next_seed - 1:,}; {version_text(NAME)}; {present_time()}'


def failure_section(options: CampaignOptions, entry: KnownFailure, folder: str) -> str:
    """The page's part for one failure: its cause, with a link from `folder` to the failure's own
    page, its sessions, its sentences, and the command that lays out its example."""
    link = os.path.relpath(os.path.join(options.results, entry.page), folder)
    text = '<br>'.join(html_text(line) for line in entry.failure.text)
    return (
        f'<h2><a href="{html.escape(link)}">{html_text(entry.failure.cause)}</a></h2>\n'
        f'<p>{sessions_text(entry).capitalize()}.</p><p>{text}</p>\n'
        f'<pre>{html_text(state_command(options, entry))}</pre>\n'
    )
