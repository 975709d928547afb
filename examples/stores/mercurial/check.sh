#!/bin/sh
# The repository must be whole after a recovery, and have the commit if it was acknowledged.
fail() { echo "$1"; exit 1; }
export HGRCPATH=/dev/null
rm -f .hg/wlock .hg/store/lock
hg recover >/dev/null 2>&1
printed=$(hg verify -q 2>&1) || fail "corrupt: $(printf '%s\n' "$printed" | tail -n 1)"
case "$CRASHFS_SAYS $(hg log -r 'all()' -T '{desc} ' 2>/dev/null)" in
'0 zero ' | '0 zero one ' | '1 zero one ') ;;
'1 zero ') fail 'lost: the commit is missing' ;;
*) fail 'lost: the first commit is missing' ;;
esac
