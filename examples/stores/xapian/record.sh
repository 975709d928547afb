#!/bin/sh
# Three documents, each committed, in an index that is there.
. "$(dirname "$0")/../recording.sh"
"$here/store.py" zero 0 >/dev/null
record --ignore flintlock . "$out" -- "$here/store.py" one 1 two 2 three 3
