#!/bin/sh
# Three transactions in a database that has its table, with a log whose files have their default size
# of 100 MB.
. "$(dirname "$0")/../recording.sh"
"$here/store" log zero 0 >/dev/null
record --ignore WiredTiger.lock . "$out" -- "$here/store" log one 1 two 2 three 3
