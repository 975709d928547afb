#!/bin/sh
# A commit, in a branch that has one.
. "$(dirname "$0")/../recording.sh"
. "$here/breezy.sh"
brz init -q .
echo zero >file
brz add -q file
brz commit -q -m zero
echo one >file
record --ignore /file . "$out" -- sh -c ". '$here/breezy.sh'; brz commit -q -m one && echo 'one is committed'"
