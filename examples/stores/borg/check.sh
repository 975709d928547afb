#!/bin/sh
# The repository must be whole, and have the acknowledged archives.
start=zero rows=one
. "${0%/*}/../rows.sh"
work=$(mktemp -d)
trap 'rm -rf "$work"' EXIT
. "$here/borg.sh"
all() {
    [ ! -e lock.exclusive ] || borg break-lock . 2>/dev/null
    for what in 'check --verify-data' 'list --short'; do
        borg $what . 2>"$work/faults" || { tail -n 1 "$work/faults"; return 1; }
    done
}
recover all
