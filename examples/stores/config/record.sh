#!/bin/sh
# A configuration of 5,010 bytes is saved three times: written in place and synced (place), or by a
# new file and a rename, without a sync (rename), with one of the file (synced), or of the directory
# too (durable).
. "$(dirname "$0")/../recording.sh"
"$here/save.py" "$session" 0 >/dev/null
record . "$out" -- "$here/save.py" "$session" 1 2 3
