#!/bin/sh
# A commit, into a repository that has one. The working copy is elsewhere.
. "$(dirname "$0")/../recording.sh"
svnadmin create .
chmod -R g-s .
svn checkout -q "file://$work/store" "$work/copy"
echo zero >"$work/copy/file"
svn add -q "$work/copy/file"
svn commit -q -m zero "$work/copy"
echo one >"$work/copy/file"
record --ignore 'db/*.db-journal' . "$out" -- sh -c "svn commit -q -m one '$work/copy' && echo 'one is committed'"
