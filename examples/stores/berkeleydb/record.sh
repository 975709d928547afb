#!/bin/sh
# Three transactions in an environment that is there: durable (rows), or with DB_TXN_NOSYNC (nosync).
. "$(dirname "$0")/../recording.sh"
"$here/store" rows zero 0 >/dev/null
record --ignore '__db.*' . "$out" -- "$here/store" "$session" one 1 two 2 three 3
