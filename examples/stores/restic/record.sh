#!/bin/sh
# A snapshot is made, in a repository that has one.
. "$(dirname "$0")/../recording.sh"
export RESTIC_PASSWORD=x RESTIC_REPOSITORY=. RESTIC_CACHE_DIR="$work/cache"
echo zero >"$work/file"
restic init -q
restic backup -q --tag zero "$work/file"
echo one >"$work/file"
record --ignore 'locks/*' . "$out" -- sh -c "restic backup -q --tag one '$work/file' && echo one"
