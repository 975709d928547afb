#!/bin/sh
# An archive is made, in a repository that has one.
. "$(dirname "$0")/../recording.sh"
. "$here/borg.sh"
echo zero >"$work/file"
borg init -e none .
borg create .::zero "$work/file"
echo one >"$work/file"
record . "$out" -- sh -c "borg create .::one '$work/file' && echo one"
