#!/bin/sh
# The database must be readable; if the package is installed, its files must be whole, and it must be
# installed if that was acknowledged.
fail() { echo "$1"; exit 1; }
printed=$(dpkg --root=. --audit 2>&1) || fail "corrupt: $(printf '%s\n' "$printed" | tail -n 1)"
status=$(dpkg-query --root=. -W -f '${Status}' small 2>/dev/null)
if [ "$status" = 'install ok installed' ]; then
    for name in one two; do
        [ "$(cat usr/share/small/$name 2>/dev/null)" = $name ] ||
            fail 'corrupt: a file of an installed package is not whole'
    done
elif [ "$CRASHFS_SAYS" = 1 ]; then
    fail 'lost: the package is not installed'
fi
exit 0
