#!/bin/sh
# The branch must be whole, and have the commit if it was acknowledged. The state of the working
# tree may have to be repaired.
fail() { echo "$1"; exit 1; }
work=$(mktemp -d)
trap 'rm -rf "$work"' EXIT
. "${0%/*}/breezy.sh"
is_readable() { brz status >/dev/null 2>&1; }
brz break-lock --force . >/dev/null 2>&1
printed=$(brz check -q --branch --repo . 2>&1) ||
    fail "corrupt: $(printf '%s\n' "$printed" | grep -E '^[A-Za-z. ]*(Error|ERROR):' | tail -n 1)"
versions=$(brz log --line . 2>/dev/null | sed -n 's/^\([0-9]*\):.*/\1/p' | tr '\n' ' ')
case "$CRASHFS_SAYS $versions" in
'0 1 ' | '0 2 1 ' | '1 2 1 ') ;;
'1 1 ') fail 'lost: the commit is missing' ;;
*) fail 'lost: the first commit is missing' ;;
esac
is_readable || { brz repair-workingtree --force >/dev/null 2>&1 && is_readable; } ||
    fail 'corrupt: the working tree can not be repaired'
