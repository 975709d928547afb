#!/bin/sh
# Three puts with sync, into a store that is there (puts) or that is made by them (new).
. "$(dirname "$0")/../recording.sh"
if [ "$session" = puts ]; then
    "$here/store.py" zero 0 >/dev/null
fi
record --ignore LOG --ignore LOG.old . "$out" -- "$here/store.py" one 1 two 2 three 3
