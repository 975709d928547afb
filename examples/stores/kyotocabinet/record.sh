#!/bin/sh
# Three hard transactions (OAUTOTRAN and OAUTOSYNC), in a hash or a tree that is there.
. "$(dirname "$0")/../recording.sh"
"$here/store" "$session" zero 0 >/dev/null
record . "$out" -- "$here/store" "$session" one 1 two 2 three 3
