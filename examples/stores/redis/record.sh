#!/bin/sh
# Three rows: in an append-only file that is synced always (aof), with a rewrite of it after the
# second row (rewrite), or saved by SAVE after each (rdb).
. "$(dirname "$0")/../recording.sh"
"$here/session.sh" "$session" zero 0 >/dev/null
record . "$out" -- "$here/session.sh" "$session" one 1 two 2 three 3
