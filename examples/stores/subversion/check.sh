#!/bin/sh
# The repository must be whole after a recovery, and have the commit if it was acknowledged.
fail() { echo "$1"; exit 1; }
svnadmin recover -q . >/dev/null 2>&1
printed=$(svnadmin verify -q . 2>&1) || fail "corrupt: $(printf '%s\n' "$printed" | tail -n 1)"
youngest=$(svnlook youngest . 2>&1) || fail "corrupt: $youngest"
case "$CRASHFS_SAYS $youngest $(svnlook cat . file 2>/dev/null)" in
'0 1 zero' | '0 2 one' | '1 2 one') ;;
'1 1 zero') fail 'lost: the commit is missing' ;;
*) fail 'lost: the file is missing' ;;
esac
