#!/bin/sh
# Three nodes are made in a server that is started on files of an earlier one; its log has 64 KiB at
# once (nodes), or 64 MiB, as by default (large).
. "$(dirname "$0")/../recording.sh"
[ "$session" = nodes ] || export size=65536
"$here/store.sh" zero 0 >/dev/null
record . "$out" -- "$here/store.sh" one 1 two 2 three 3
