#!/bin/sh
# Three transactions, without a mapping (rows) or with one (mapped).
. "$(dirname "$0")/../recording.sh"
case $session in
rows)
    "$here/store.py" plain zero 0 >/dev/null
    record . "$out" -- "$here/store.py" plain one 1 two 2 three 3 ;;
mapped)
    "$here/store.py" mapped zero 0 >/dev/null
    record --mapped . "$out" -- "$here/store.py" mapped one 1 two 2 three 3 ;;
esac
