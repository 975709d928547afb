#!/bin/sh
# Each file must be readable; the old user must be there, and the new one if it was acknowledged.
fail() { echo "$1"; exit 1; }
for file in passwd shadow; do
    grep -qs '^old:' etc/$file || fail 'corrupt: the old user is missing'
    tr -d '[:print:]\n' <etc/$file | cmp -s - /dev/null || fail 'corrupt: a file has other bytes'
    [ "$CRASHFS_SAYS" = 0 ] || grep -qs '^new:' etc/$file || fail 'lost: the new user is missing'
done
