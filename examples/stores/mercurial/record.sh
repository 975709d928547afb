#!/bin/sh
# A commit, in a repository that has one.
. "$(dirname "$0")/../recording.sh"
export HGRCPATH=/dev/null HGUSER=me
hg init .
echo zero >file
hg commit -q -A -d '1700000000 0' -m zero
echo one >file
record --ignore /file . "$out" -- sh -c \
    "hg commit -q -d '1700000001 0' -m one && echo 'one is committed'"
