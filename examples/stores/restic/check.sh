#!/bin/sh
# The repository must be whole, and have the acknowledged snapshot.
start=zero rows=one
. "${0%/*}/../rows.sh"
export RESTIC_PASSWORD=x RESTIC_REPOSITORY=.
all() {
    printed=$(restic --no-cache --no-lock check -q --read-data 2>&1) ||
        { printf '%s\n' "$printed" | tail -n 1; return 1; }
    restic --no-cache --no-lock snapshots --json | grep -o '"tags":\["[a-z]*' | sed 's/.*"//'
}
recover all
