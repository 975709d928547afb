"""Texts of JSON: compact, UTF-8 whatever is in them, and packed for a while."""

from __future__ import annotations

import json
import re
from typing import Any

COMPACT = {'separators': (',', ':')}
SURROGATE = re.compile('[\ud800-\udfff]')


def pack_text(text: str) -> bytes:
    """Compresses a text, which unpack_text() gives back. The text may have surrogates of bytes that
    aren't UTF-8; UnicodeEncodeError for other surrogates."""
    import zlib

    return zlib.compress(text.encode('utf-8', 'surrogateescape'))


def unpack_text(packed_text: bytes) -> str:
    """The text that pack_text() was given."""
    import zlib

    return zlib.decompress(packed_text).decode('utf-8', 'surrogateescape')


def as_json(fields: Any, **layout: Any) -> str:
    """Fields as JSON that can be written as UTF-8: bytes in their texts that aren't UTF-8 are
    escapes of surrogates. layout has further arguments of json.dumps(), which raises ValueError or
    TypeError for what isn't JSON."""
    return SURROGATE.sub(
        lambda match: f'\\u{ord(match[0]):04x}',
        json.dumps(fields, ensure_ascii=False, **layout),
    )
