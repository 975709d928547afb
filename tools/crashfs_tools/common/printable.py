"""Text as a terminal may show it: what would control the terminal is shown as an escape."""

from __future__ import annotations

import re
from typing import Iterable, List

# Control characters, marks that change the direction or join letters, separators of lines,
# characters of no meaning, and halves of surrogate pairs, which are bytes that aren't UTF-8.
UNPRINTABLE = re.compile(
    '[\x00-\x1f\x7f-\x9f\xad\u061c\u180e\u200b-\u200f\u2028-\u202e\u2060-\u206f'
    '\ufeff\ufff9-\ufffc\ufffe\uffff\ud800-\udfff\U000e0000-\U000e007f]'
)
# Reports are folded to so many columns.
COLUMNS = 100
SHORT_ESCAPES = {'\n': '\\n', '\t': '\\t', '\r': '\\r'}


def escape_unprintable(text: str, allowed: str = '') -> str:
    """The text with an escape, such as \\x1b or \\u202e, for each character of UNPRINTABLE that
    isn't in `allowed`. Backslashes stay: an escape that the text has itself looks the same."""
    return UNPRINTABLE.sub(
        lambda match: match[0] if match[0] in allowed else escape_character(match[0]), text
    )


def escape_character(character: str) -> str:
    """The escape of a character, in hexadecimal digits unless SHORT_ESCAPES has it. For a byte that
    isn't UTF-8, which Python has as half of a surrogate pair, it is the escape of the byte."""
    code = ord(character)
    if character in SHORT_ESCAPES:
        return SHORT_ESCAPES[character]
    if 0xDC80 <= code <= 0xDCFF:
        return f'\\x{code - 0xDC00:02x}'
    if code < 0x100:
        return f'\\x{code:02x}'
    return f'\\u{code:04x}' if code < 0x10000 else f'\\U{code:08x}'


def count_text(count: int, noun: str, plural: str = '') -> str:
    """A number with what it counts, as `1 state` or `2,000 states`: the noun gets an s unless the
    number is 1. `plural` must be given if the plural isn't the noun with an s."""
    return f'{count:,} {noun if count == 1 else plural or noun + "s"}'


def folded_lines(lines: Iterable[str], indent: str, *, may_break_words: bool = False) -> List[str]:
    """Lines with an indent, with control characters as escapes, and folded to COLUMNS characters;
    the further parts of a line are indented by two blanks more. A word stays whole, however long it
    is, unless may_break_words: then it is also broken at its hyphens. Blanks at the ends of a line
    are left out, and a line of blanks gives none."""
    from textwrap import wrap

    return [
        part
        for line in lines
        for part in wrap(
            escape_unprintable(line),
            COLUMNS,
            initial_indent=indent,
            subsequent_indent=f'{indent}  ',
            break_long_words=may_break_words,
            break_on_hyphens=may_break_words,
        )
    ]
