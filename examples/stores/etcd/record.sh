#!/bin/sh
# Three keys are put into a server that is started on files of an earlier one.
. "$(dirname "$0")/../recording.sh"
"$here/session.sh" zero 0 >/dev/null
record . "$out" -- "$here/session.sh" one 1 two 2 three 3
