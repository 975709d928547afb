"""What the pages for a browser share."""

from __future__ import annotations

import html
import time

from .printable import escape_unprintable


def html_text(text: str, allowed: str = '') -> str:
    """A text as HTML that shows each of its characters, and has no tag. Control characters that
    aren't in `allowed` are shown as escapes, by escape_unprintable()."""
    return html.escape(escape_unprintable(text, allowed))


def present_time() -> str:
    """The present date and time in UTC, as `2027-01-31 23:59:59 UTC`."""
    return time.strftime('%Y-%m-%d %H:%M:%S UTC', time.gmtime())
