#!/bin/sh
# Three rows: with GDBM_SYNC and without a mapping (sync), or as GDBM is by default (mapped).
. "$(dirname "$0")/../recording.sh"
case $session in
sync)
    "$here/store" sync zero 0 >/dev/null
    record . "$out" -- "$here/store" sync one 1 two 2 three 3 ;;
mapped)
    "$here/store" mapped zero 0 >/dev/null
    record --mapped . "$out" -- "$here/store" mapped one 1 two 2 three 3 ;;
esac
