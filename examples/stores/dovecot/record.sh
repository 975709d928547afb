#!/bin/sh
# Three mails are saved into an sdbox that has one. Root records as nobody, who must be able to read
# this folder: Dovecot reads no mail of root's.
. "$(dirname "$0")/../recording.sh"
if [ "$(id -u)" = 0 ]; then
    chown -R nobody:nogroup "$work"
    as='setpriv --reuid nobody --regid nogroup --clear-groups'
fi
$as "$here/mails.sh" save zero >/dev/null
$as "$tools/crashfs-record" --trace-version 4 . "$work/trace" -- \
    "$here/mails.sh" save one two three && cat "$work/trace" >"$out"
