#!/bin/sh
# Three commits with write_delay=false, and SHUTDOWN, in a database that has its table.
. "$(dirname "$0")/../recording.sh"
"$here/store.sh" zero 0 >/dev/null
record --ignore '*.lck' . "$out" -- "$here/store.sh" one 1 two 2 three 3
