"""The report as one page for a browser: no other file is needed, and no network."""

from __future__ import annotations

import shlex
from itertools import chain
from typing import Iterable, Iterator, List

from crashfs_tools.checker.findings.groups import Group
from crashfs_tools.checker.findings.second_crashes import SecondCrash
from crashfs_tools.common.command import version_text
from crashfs_tools.common.pages import html_text, present_time
from crashfs_tools.common.trace_lines import SYNCS, TraceLine

from .page_parts import SCRIPT, STYLE
from .json_text import COMPACT, as_json
from .report import CheckReport
from .text import ReportText, lines_of_pair, second_crash_details, states_and_example

# Of a session in several windows, so many lines are shown before and after each marked one.
NEAR_LINES = 20
# So many windows are drawn: the page must stay small.
MOST_DRAWINGS = 8


def page_pieces(report: CheckReport) -> Iterator[str]:
    """The text of the file of --html, in pieces. It draws the states of the first crash, in at most
    MOST_DRAWINGS windows. What windows cut off, all advised syncs at once, sets drawn at random and
    outcomes from the cache are only in the other reports."""
    title = multiline_html(report.head.trace)
    report_text = ReportText(report)
    yield (
        f'<!DOCTYPE html>\n<html lang="en"><head><meta charset="utf-8">'
        '<meta name="viewport" content="width=device-width">\n'
        f'<title>{title}</title>\n<style>{STYLE}</style></head>\n<body>\n<h1>{title}</h1>\n'
    )
    first_lines = [*report_text.first_lines(), *report_text.question_lines()]
    if report.recoveries:
        first_lines += report_text.recovery_counts()
    yield elements('p', first_lines, css_class='summary')
    yield about_line(report)
    groups = sorted(report.groups(), key=lambda group: group.accepted_entry is not None)
    yield from chain.from_iterable(entry_section(report, group) for group in groups)
    yield elements('p', map(str.strip, report_text.missing_accepted_lines()))
    yield from recovery_section(report)
    yield from disk_section(report)
    yield elements('p', report.not_done)
    yield from states_section(report)
    yield '<h2>The session</h2>\n<table class="session">\n'
    yield from session_lines(report, groups)
    yield '</table>\n'
    yield f'<script>const windows = {script_data(report)};\n{SCRIPT}</script>\n</body></html>\n'


def multiline_html(text: str) -> str:
    """A text as HTML, between tags or in the value of an attribute: escaped as by html_text(), but
    newlines and tabs stay as they are."""
    return html_text(text, '\n\t')


def elements(tag: str, lines: Iterable[str], *, css_class: str = '') -> str:
    """Lines as HTML, each as an element with this tag, such as `p` or `li`, and with this class of
    the page's style, if it isn't empty."""
    attribute = f' class="{css_class}"' if css_class else ''
    return ''.join(f'<{tag}{attribute}>{multiline_html(line)}</{tag}>\n' for line in lines)


def states_section(report: CheckReport) -> Iterator[str]:
    """The section of HTML with the states, which the page's script draws there: how many were
    tried and, if some windows aren't drawn, how many are."""
    yield f'<h2>The states</h2>\n<p>{multiline_html(report.counts.tried_text)}</p>\n'
    yield '<div id="states"></div><p id="shown"></p>\n'
    drawn_count = len(report.drawings[:MOST_DRAWINGS])
    if report.counts.windows > drawn_count:
        yield (
            f'<p>These are {drawn_count} of {report.counts.windows:,} windows: '
            'the first, and the first in which states fail.</p>\n'
        )


def about_line(report: CheckReport) -> str:
    """A line of HTML with COMMAND, the version of the tools, whether crashfs computed the states,
    and the present time in UTC."""
    states = 'states by the Python implementation' if report.head.unproved else 'states by crashfs'
    parts = [
        f'COMMAND: {shlex.join(report.head.command)}',
        version_text('crashfs-check'),
        states,
        present_time(),
    ]
    return f'<p class="about">{multiline_html("; ".join(parts))}</p>\n'


def entry_section(report: CheckReport, group: Group) -> Iterator[str]:
    """An entry as HTML: its cause, its details, its two lines of the trace, how files differ, and
    the end of what COMMAND printed in the example. What isn't known is left out. Of a line that the
    report doesn't have only the number is shown."""
    cause, states = multiline_html(group.outcome.cause), multiline_html(states_and_example(group))
    css_class = '' if group.accepted_entry is None else ' class="accepted"'
    yield f'<section{css_class}><h2>{cause}</h2><p>{states}</p>\n'
    yield f'<ul>\n{elements("li", ReportText(report).details(group))}</ul>\n'
    yield '<table class="session">\n'
    for line in lines_of_pair(group):
        yield line_row(report.head.lines.get(line.number) or TraceLine(line.number, ''), 'pair')
    yield '</table>\n'
    yield from difference_section(group)
    if group.outcome.output:
        yield f'<pre>{multiline_html(group.outcome.output)}</pre>\n'
    yield '</section>\n'


def recovery_section(report: CheckReport) -> Iterator[str]:
    """A section of HTML with the entries of second crashes, and the recoveries in which no second
    crash was tried; no section if there are neither."""
    entries, not_tried = report.recovery_groups(), ReportText(report).not_tried_lines()
    if not entries and not not_tried:
        return
    yield '<section><h2>A crash during the recovery</h2>\n'
    for group, second_crash in entries:
        yield from second_crash_lines(group, second_crash)
    yield elements('p', map(str.strip, not_tried))
    yield '</section>\n'


def second_crash_lines(group: Group, second_crash: SecondCrash) -> Iterator[str]:
    """An entry of second crashes as HTML: its cause, the lines of second_crash_details(), and the
    end of what COMMAND printed in the example, if it printed anything."""
    states = states_and_example(group, second_crash)
    details = second_crash_details(group, second_crash)
    yield f'<h3>{multiline_html(group.outcome.cause)}</h3>\n<p>{multiline_html(states)}</p>\n'
    yield f'<ul>\n{elements("li", details)}</ul>\n'
    if group.outcome.output:
        yield f'<pre>{multiline_html(group.outcome.output)}</pre>\n'


def disk_section(report: CheckReport) -> Iterator[str]:
    """A section of HTML with what was seen on real disks, and the failures there that no tried
    state has; no section if nothing was tried on disks."""
    if report.sightings is None:
        return
    yield '<section><h2>On real disks</h2>\n'
    yield f'<ul>\n{elements("li", report.sightings.lines())}</ul>\n'
    for failure in report.disk_failures():
        yield elements('h3', [failure.outcome.cause])
        yield elements('p', [failure.explanation.reason.value])
        yield f'<ul>\n{elements("li", failure.lines())}</ul>\n'
    yield '</section>\n'


def difference_section(group: Group) -> Iterator[str]:
    """How the files of an entry's example differ from those of the nearest good state, as HTML, or
    that they are equal; nothing if the files weren't compared."""
    difference = group.difference
    if difference is None:
        return
    if not difference.lines:
        yield (
            f'<p>State {group.example.number} has the same files as state {difference.good_state}, '
            'which is good: other lines were acknowledged.</p>\n'
        )
        return
    yield (
        f'<p>State {group.example.number} and state {difference.good_state}, which is good:</p>'
        f'\n<ul class="differences">\n{elements("li", difference.lines)}</ul>\n'
    )


def session_lines(report: CheckReport, groups: List[Group]) -> Iterator[str]:
    """The rows of the session's table, in which the lost and the kept line of each group are
    marked. Of a session in several windows only these lines have rows, and those up to NEAR_LINES
    line numbers away. No rows if the report has no lines."""
    marked_numbers = {line.number for group in groups for line in lines_of_pair(group)}
    distances = range(-NEAR_LINES, NEAR_LINES + 1)
    near_numbers = {number + distance for number in marked_numbers for distance in distances}
    for number, line in report.head.lines.items():
        if report.counts.windows == 1 or number in near_numbers:
            yield line_row(line, 'pair' if number in marked_numbers else '')


def line_row(line: TraceLine, mark: str) -> str:
    """A row of a table, as HTML, for a line of the trace. mark is a class of the page's style in
    addition to that of the operation, or empty."""
    word = 'sync' if line.word in SYNCS else line.word
    return (
        f'<tr class="{multiline_html(word)} {mark}"><td>{line.number}</td>'
        f'<td>{multiline_html(line.text)}</td><td>{multiline_html(line.note)}</td></tr>\n'
    )


def script_data(report: CheckReport) -> str:
    """The first MOST_DRAWINGS drawings of the report as a value of the page's script. The text has
    no `<`, which could end the script."""
    drawings = as_json(report.drawings[:MOST_DRAWINGS], **COMPACT)
    return drawings.replace('<', '\\u003c')
