"""Parses access control lists, as the extended attribute NAME has them. A list that is set also
sets the file's mode."""

from __future__ import annotations

import struct
from typing import Dict, Optional

NAME = 'system.posix_acl_access'
VERSION = 2
# A list is its version and entries: a tag, the rights, and the number of a named user or group.
HEADER, ENTRY = struct.Struct('<I'), struct.Struct('<HHI')
# The tags of entries for the owner, the owning group, the mask and all others.
OWNER, GROUP, MASK, OTHERS = 0x01, 0x04, 0x10, 0x20


def parse_rights(value: bytes) -> Optional[Dict[int, int]]:
    """The rights of an access control list, by the tags of its entries; None if the value is no
    such list. Of several entries with one tag, as for named users, only the last is kept:
    has_only_mode() needs no more."""
    if len(value) % ENTRY.size != HEADER.size or HEADER.unpack_from(value) != (VERSION,):
        return None
    return {tag: rights & 0o7 for tag, rights, _ in ENTRY.iter_unpack(value[HEADER.size :])}


def mode_of_rights(rights: Dict[int, int]) -> int:
    """The mode that a list with these rights by tag gives a file. The rights of the mask, if there
    is one, replace those of the group. A tag that is missing gives no rights."""
    group = rights.get(MASK, rights.get(GROUP, 0))
    return rights.get(OWNER, 0) << 6 | group << 3 | rights.get(OTHERS, 0)


def has_only_mode(rights: Dict[int, int]) -> bool:
    """Whether a list with these rights by tag says no more than a mode: it has no entries but those
    for the owner, the owning group and all others."""
    return rights.keys() <= {OWNER, GROUP, OTHERS}
