#!/bin/sh
# The link must lead to one of the two, and to the second if that was acknowledged.
fail() { echo "$1"; exit 1; }
case "$CRASHFS_SAYS $(readlink current)" in
'0 one' | '0 two' | '1 two') ;;
'1 one') fail 'lost: the link leads to the first' ;;
*) fail 'lost: there is no link' ;;
esac
