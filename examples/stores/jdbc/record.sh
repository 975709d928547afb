#!/bin/sh
# Three transactions, each committed by itself, in a database that has its table.
. "$(dirname "$0")/../recording.sh"
"$here/store.sh" "$session" zero 0 >/dev/null
record --ignore '*.lck' --ignore '*.trace.db' . "$out" -- "$here/store.sh" "$session" one 1 two 2 three 3
