#!/bin/sh
# Three changes of a zone: its file is written after each, as by default (zonefile), or only the
# journal is (journal).
. "$(dirname "$0")/../recording.sh"
"$here/changes.sh" "$session" make zero >/dev/null
record --ignore lock.mdb . "$out" -- "$here/changes.sh" "$session" make one two three
