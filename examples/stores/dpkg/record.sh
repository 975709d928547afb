#!/bin/sh
# A package of two files is installed: with dpkg's syncs (synced), or with force-unsafe-io (unsafe).
. "$(dirname "$0")/../recording.sh"
mkdir -p "$work/p/DEBIAN" "$work/p/usr/share/small" var/lib/dpkg/updates var/lib/dpkg/info
printf 'Package: small\nVersion: 1\nArchitecture: all\nMaintainer: me <me@example.com>\n%s\n' \
    'Description: small' >"$work/p/DEBIAN/control"
echo one >"$work/p/usr/share/small/one"
echo two >"$work/p/usr/share/small/two"
touch var/lib/dpkg/status var/lib/dpkg/available
dpkg-deb -b "$work/p" "$work/small.deb" >/dev/null
case $session in
synced) how=--no-force-unsafe-io ;;
unsafe) how=--force-unsafe-io ;;
esac
record --ignore '*-old' --ignore 'lock*' . "$out" -- sh -c \
    "dpkg --log=/dev/null $how --root=. -i '$work/small.deb' >&2 && echo 'small is installed'"
