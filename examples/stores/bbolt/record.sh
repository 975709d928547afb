#!/bin/sh
# Three transactions, in a file that is there (rows) or that is made by them (new).
. "$(dirname "$0")/../recording.sh"
[ "$session" = new ] || "$here/store" zero 0 >/dev/null
record . "$out" -- "$here/store" one 1 two 2 three 3
