"""The words that are retired, with what to write, and the places that may have them."""

from __future__ import annotations

from typing import Dict, Tuple

# What is retired, as patterns, with what to write.
RETIRED = {
    r'wants? of memory': 'out of memory',
    r'memory (?:is|was) wanting': 'out of memory',
    r'refused growths?': 'an allocation that fails',
    r'told': 'acknowledged, reported, printed',
    r'tells': 'reports, returns, prints',
    r'stands|stood|stand in': 'is, is in',
    r'comes to|came to': 'results in, gives, becomes',
    r'just (?:the|where)': 'exactly the, exactly if',
    r'lets? go|letting go': 'drop',
    r'by halves': 'by binary search',
    r'as ever|all the same': '(leave it out)',
    r'hands on|handed on': 'passes',
    r'lets in': 'accepts',
    r'for want of': 'because there is no',
    r'for ever': 'forever',
    r'anew': 'again, from scratch',
    r'(?:is|are) to (?:be|have|take|give|come)': 'must',
    r'behind (?:the|each|every|an?) (?:call|line|operation|sync|write)s?': 'after',
}
# What no name of Python has, between its underscores, with what to write.
RETIRED_NAMES = {
    'told': 'traced, reported, acknowledged, error_text',
    'tell': 'print_line, add_operation',
    'tells': 'reports',
    'telling': 'writing, reporting',
    'hear': 'read, on_line',
    'voice': 'output_stream',
    'voices': 'output_streams',
    'silence': 'a verb or a noun phrase',
    'go_on': 'a verb with its object',
    'comes_in': 'a verb with its object',
    'goes_out': 'a verb with its object',
    'look_closer': 'a verb with its object',
    'met': 'found, seen',
    'stands': 'is',
    'anew': 'again',
}
# Where one of them may be: the file, a text of its line, and why.
ALLOWED: Dict[Tuple[str, str], str] = {}
